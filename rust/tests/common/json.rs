//! A reader for the test data: objects, lists, texts without escapes, and whole numbers.

#[derive(Debug, PartialEq)]
pub enum Json {
    Number(i64),
    Text(String),
    List(Vec<Json>),
    Object(Vec<(String, Json)>),
}

impl Json {
    /// Reads a whole text; fails on anything that is not understood.
    pub fn read(text: &str) -> Json {
        let mut reader = Reader { text: text.as_bytes(), place: 0 };
        let value = reader.value();
        reader.space();
        assert_eq!(reader.place, text.len(), "something follows the value");
        value
    }

    pub fn object(&self) -> &[(String, Json)] {
        match self {
            Json::Object(fields) => fields,
            other => panic!("not an object: {other:?}"),
        }
    }

    pub fn field(&self, name: &str) -> &Json {
        let found = self.object().iter().find(|(key, _)| key == name);
        &found.unwrap_or_else(|| panic!("no field {name}")).1
    }

    pub fn list(&self) -> &[Json] {
        match self {
            Json::List(items) => items,
            other => panic!("not a list: {other:?}"),
        }
    }

    pub fn text(&self) -> &str {
        match self {
            Json::Text(text) => text,
            other => panic!("not a text: {other:?}"),
        }
    }

    /// The number, as a type that holds it.
    pub fn number<T: TryFrom<i64>>(&self) -> T {
        match self {
            Json::Number(number) => T::try_from(*number).ok().expect("a number in range"),
            other => panic!("not a number: {other:?}"),
        }
    }

    pub fn numbers<T: TryFrom<i64>>(&self) -> Vec<T> {
        self.list().iter().map(Json::number).collect()
    }
}

struct Reader<'a> {
    text: &'a [u8],
    place: usize,
}

impl Reader<'_> {
    fn space(&mut self) {
        while self.text.get(self.place).is_some_and(u8::is_ascii_whitespace) {
            self.place += 1;
        }
    }

    /// The next byte that is no space.
    fn peek(&mut self) -> u8 {
        self.space();
        *self.text.get(self.place).expect("the text ends early")
    }

    fn take(&mut self, wanted: u8) {
        let found = self.peek();
        assert_eq!(found, wanted, "byte {} is {:?}", self.place, char::from(found));
        self.place += 1;
    }

    fn value(&mut self) -> Json {
        match self.peek() {
            b'{' => Json::Object(self.items(b'{', b'}', |r| {
                let key = r.string();
                r.take(b':');
                (key, r.value())
            })),
            b'[' => Json::List(self.items(b'[', b']', Self::value)),
            b'"' => Json::Text(self.string()),
            _ => self.whole(),
        }
    }

    fn items<T>(&mut self, open: u8, close: u8, mut item: impl FnMut(&mut Self) -> T) -> Vec<T> {
        self.take(open);
        let mut items = Vec::new();
        while self.peek() != close {
            if !items.is_empty() {
                self.take(b',');
            }
            items.push(item(self));
        }
        self.take(close);
        items
    }

    fn string(&mut self) -> String {
        self.take(b'"');
        let rest = &self.text[self.place..];
        let length = rest.iter().position(|&byte| byte == b'"').expect("a text ends");
        assert!(!rest[..length].contains(&b'\\'), "an escape, which this reader does not know");
        self.place += length + 1;
        String::from_utf8(rest[..length].to_vec()).expect("UTF-8")
    }

    fn whole(&mut self) -> Json {
        let rest = &self.text[self.place..];
        let length = rest.iter().position(|byte| !matches!(byte, b'-' | b'0'..=b'9')).unwrap_or(rest.len());
        self.place += length;
        let digits = std::str::from_utf8(&rest[..length]).expect("digits");
        Json::Number(digits.parse().expect("a whole number"))
    }
}
