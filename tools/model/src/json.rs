//! As much of JSON as vectors are written in.

#[derive(Clone, PartialEq, Debug)]
pub enum Json {
    Null,
    Number(usize),
    Text(String),
    List(Vec<Json>),
    Object(Vec<(String, Json)>),
}

impl Json {
    pub fn read(text: &str) -> Json {
        let mut reader = Reader { bytes: text.as_bytes(), at: 0 };
        let value = reader.value();
        assert_eq!(reader.next_sign(), None, "something stands behind a value");
        value
    }

    /// A member of an object that has it.
    pub fn member(&self, name: &str) -> &Json {
        self.find(name).unwrap_or_else(|| panic!("no {name} in {self:?}"))
    }

    pub fn find(&self, name: &str) -> Option<&Json> {
        match self {
            Json::Object(members) => members.iter().find(|member| member.0 == name).map(|member| &member.1),
            _ => None,
        }
    }

    pub fn number(&self) -> usize {
        match self {
            Json::Number(number) => *number,
            other => panic!("{other:?} is no number"),
        }
    }

    pub fn text(&self) -> &str {
        match self {
            Json::Text(text) => text,
            other => panic!("{other:?} is no text"),
        }
    }

    pub fn list(&self) -> &[Json] {
        match self {
            Json::List(list) => list,
            other => panic!("{other:?} is no list"),
        }
    }

    /// A list of numbers below 256.
    pub fn codes(&self) -> Vec<u8> {
        self.list().iter().map(|code| u8::try_from(code.number()).expect("a code is a byte")).collect()
    }

    /// Bytes in hexadecimal.
    pub fn bytes(&self) -> Vec<u8> {
        let digit = |byte: u8| char::from(byte).to_digit(16).expect("a hexadecimal digit") as u8;
        self.text().as_bytes().chunks(2).map(|pair| 16 * digit(pair[0]) + digit(pair[1])).collect()
    }
}

struct Reader<'a> {
    bytes: &'a [u8],
    at: usize,
}

impl Reader<'_> {
    fn next_sign(&mut self) -> Option<u8> {
        while self.bytes.get(self.at).is_some_and(u8::is_ascii_whitespace) {
            self.at += 1;
        }
        self.bytes.get(self.at).copied()
    }

    fn take(&mut self, sign: u8) -> bool {
        let there = self.next_sign() == Some(sign);
        self.at += usize::from(there);
        there
    }

    fn expect(&mut self, sign: u8) {
        assert!(self.take(sign), "{} is missing at byte {}", char::from(sign), self.at);
    }

    fn value(&mut self) -> Json {
        match self.next_sign() {
            Some(b'{') => Json::Object(self.items(b'{', b'}', |reader| {
                let name = reader.string();
                reader.expect(b':');
                (name, reader.value())
            })),
            Some(b'[') => Json::List(self.items(b'[', b']', Self::value)),
            Some(b'"') => Json::Text(self.string()),
            Some(b'0'..=b'9') => {
                let digits = self.bytes[self.at..].iter().take_while(|byte| byte.is_ascii_digit());
                let number = digits.fold(0, |number, digit| 10 * number + usize::from(digit - b'0'));
                while self.bytes.get(self.at).is_some_and(u8::is_ascii_digit) {
                    self.at += 1;
                }
                Json::Number(number)
            }
            Some(b'n') if self.bytes[self.at..].starts_with(b"null") => {
                self.at += 4;
                Json::Null
            }
            _ => panic!("no value begins at byte {}", self.at),
        }
    }

    fn items<T>(&mut self, begin: u8, end: u8, item: impl Fn(&mut Self) -> T) -> Vec<T> {
        self.expect(begin);
        let mut items = Vec::new();
        if self.take(end) {
            return items;
        }
        loop {
            items.push(item(self));
            if self.take(end) {
                return items;
            }
            self.expect(b',');
        }
    }

    fn string(&mut self) -> String {
        self.expect(b'"');
        let length = self.bytes[self.at..].iter().position(|&byte| byte == b'"').expect("a string ends");
        let text = &self.bytes[self.at..self.at + length];
        assert!(!text.contains(&b'\\'), "vectors have no escapes");
        self.at += length + 1;
        String::from_utf8(text.to_vec()).expect("vectors are text")
    }
}
