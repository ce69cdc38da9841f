//! JSON documents of the library's, read.

/// A JSON value; of numbers those that aren't negative, which all of a document are.
#[derive(Debug)]
pub(crate) enum Json {
    Null,
    Bool(bool),
    Number(u64),
    Text(String),
    List(Vec<Json>),
    Object(Vec<(String, Json)>),
}

impl Json {
    /// The value of a document.
    pub(crate) fn read(text: &str) -> Json {
        Reader { text, at: 0 }.value()
    }

    /// The member of this name; null where there is none.
    pub(crate) fn get(&self, name: &str) -> &Json {
        match self {
            Json::Object(members) => members.iter().find(|it| it.0 == name).map_or(&Json::Null, |it| &it.1),
            _ => &Json::Null,
        }
    }

    pub(crate) fn text(&self) -> Option<&str> {
        if let Json::Text(text) = self { Some(text) } else { None }
    }

    pub(crate) fn number(&self) -> Option<u64> {
        if let Json::Number(number) = self { Some(*number) } else { None }
    }

    pub(crate) fn bool(&self) -> Option<bool> {
        if let Json::Bool(it) = self { Some(*it) } else { None }
    }

    pub(crate) fn list(&self) -> Option<&[Json]> {
        if let Json::List(list) = self { Some(list) } else { None }
    }
}

struct Reader<'a> {
    text: &'a str,
    at: usize,
}

impl Reader<'_> {
    fn next(&mut self) -> char {
        self.at = self.text.len() - self.text[self.at..].trim_start().len();
        let found = self.text[self.at..].chars().next().expect("a whole document");
        self.at += found.len_utf8();
        found
    }

    fn is_next(&mut self, wanted: char) -> bool {
        let before = self.at;
        let is = self.next() == wanted;
        if !is {
            self.at = before;
        }
        is
    }

    fn value(&mut self) -> Json {
        match self.next() {
            '{' => Json::Object(self.many('}', |reader| {
                reader.next();
                let name = reader.string();
                reader.next();
                (name, reader.value())
            })),
            '[' => Json::List(self.many(']', Reader::value)),
            '"' => Json::Text(self.string()),
            first if first.is_ascii_digit() => {
                let rest = &self.text[self.at - 1..];
                let end = rest.find(|c: char| !c.is_ascii_digit()).unwrap_or(rest.len());
                self.at += end - 1;
                Json::Number(rest[..end].parse().expect("a number of 64 bits"))
            }
            't' => self.word(3, Json::Bool(true)),
            'f' => self.word(4, Json::Bool(false)),
            _ => self.word(3, Json::Null),
        }
    }

    fn word(&mut self, rest: usize, value: Json) -> Json {
        self.at += rest;
        value
    }

    fn many<T>(&mut self, end: char, one: impl Fn(&mut Self) -> T) -> Vec<T> {
        let mut all = Vec::new();
        while !self.is_next(end) {
            if !all.is_empty() {
                self.next();
            }
            all.push(one(self));
        }
        all
    }

    /// The rest of a string, behind its first quote.
    fn string(&mut self) -> String {
        let (mut text, mut rest) = (String::new(), self.text[self.at..].chars());
        loop {
            match rest.next().expect("a whole string") {
                '"' => break,
                '\\' => text.push(escaped(&mut rest)),
                other => text.push(other),
            }
        }
        self.at = self.text.len() - rest.as_str().len();
        text
    }
}

fn escaped(rest: &mut std::str::Chars<'_>) -> char {
    match rest.next().expect("an escape") {
        'n' => '\n',
        'r' => '\r',
        't' => '\t',
        'b' => '\u{8}',
        'f' => '\u{c}',
        'u' => {
            let digits: String = rest.take(4).collect();
            // (the library writes what is beyond 16 bits as it is)
            char::from_u32(u32::from_str_radix(&digits, 16).expect("four digits")).expect("a character")
        }
        other => other,
    }
}
