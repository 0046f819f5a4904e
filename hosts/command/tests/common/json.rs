//! A small reader of JSON that takes nothing else, for what the command writes.

use std::collections::BTreeMap;

/// A value.
#[derive(Clone, Debug, PartialEq)]
pub enum Value {
    Null,
    Bool(bool),
    Number(u64),
    Text(String),
    List(Vec<Value>),
    Object(BTreeMap<String, Value>),
}

impl Value {
    /// The value of a name.
    pub fn get(&self, name: &str) -> &Value {
        match self {
            Value::Object(fields) => fields.get(name).unwrap_or(&Value::Null),
            _ => &Value::Null,
        }
    }

    /// The value at a place of a list.
    pub fn at(&self, place: usize) -> &Value {
        match self {
            Value::List(values) => values.get(place).unwrap_or(&Value::Null),
            _ => &Value::Null,
        }
    }

    /// The bytes that an object of `text` and perhaps `hex` stands for.
    pub fn bytes(&self) -> Vec<u8> {
        match (self.get("text"), self.get("hex")) {
            (_, Value::Text(hex)) => {
                let pairs = (0..hex.len()).step_by(2).map(|at| u8::from_str_radix(&hex[at..at + 2], 16));
                pairs.collect::<Result<_, _>>().expect("hex digits")
            }
            (Value::Text(text), _) => text.as_bytes().to_vec(),
            _ => panic!("{:?} has no text", self),
        }
    }
}

/// A text as a value's text.
pub fn text(text: &str) -> Value {
    Value::Text(text.to_string())
}

/// Reads a text that is one value and nothing else.
pub fn read(text: &str) -> Result<Value, String> {
    let mut reader = Reader { rest: text };
    let value = reader.value()?;
    match reader.rest {
        "" => Ok(value),
        rest => Err(format!("{:?} stands behind the value", rest)),
    }
}

struct Reader<'a> {
    rest: &'a str,
}

impl Reader<'_> {
    /// Whether the rest begins with a word, which is passed then.
    fn passes(&mut self, word: &str) -> bool {
        let rest = self.rest.strip_prefix(word);
        self.rest = rest.unwrap_or(self.rest);
        rest.is_some()
    }

    fn needs(&mut self, word: &str) -> Result<(), String> {
        match self.passes(word) {
            true => Ok(()),
            false => Err(format!("{} is wanted before {:?}", word, self.rest)),
        }
    }

    fn value(&mut self) -> Result<Value, String> {
        let words = [("null", Value::Null), ("true", Value::Bool(true)), ("false", Value::Bool(false))];
        if let Some((_word, value)) = words.into_iter().find(|(word, _value)| self.passes(word)) {
            return Ok(value);
        }
        match self.rest.chars().next() {
            Some('"') => self.string().map(Value::Text),
            Some('[') => self.list(),
            Some('{') => self.object(),
            _ => self.number(),
        }
    }

    fn number(&mut self) -> Result<Value, String> {
        let digits = self.rest.chars().take_while(char::is_ascii_digit).count();
        let (number, rest) = self.rest.split_at(digits);
        if number.len() > 1 && number.starts_with('0') {
            return Err(format!("{} begins with 0", number));
        }
        self.rest = rest;
        number.parse().map(Value::Number).map_err(|_| format!("no value is before {:?}", rest))
    }

    fn list(&mut self) -> Result<Value, String> {
        self.needs("[")?;
        let mut values = Vec::new();
        while !self.passes("]") {
            if !values.is_empty() {
                self.needs(",")?;
            }
            values.push(self.value()?);
        }
        Ok(Value::List(values))
    }

    fn object(&mut self) -> Result<Value, String> {
        self.needs("{")?;
        let mut fields = BTreeMap::new();
        while !self.passes("}") {
            if !fields.is_empty() {
                self.needs(",")?;
            }
            let name = self.string()?;
            self.needs(":")?;
            let value = self.value()?;
            if fields.insert(name.clone(), value).is_some() {
                return Err(format!("{} is there twice", name));
            }
        }
        Ok(Value::Object(fields))
    }

    fn string(&mut self) -> Result<String, String> {
        self.needs("\"")?;
        let mut units: Vec<u16> = Vec::new();
        loop {
            let letter = self.rest.chars().next().ok_or("a string is open")?;
            self.rest = &self.rest[letter.len_utf8()..];
            match letter {
                '"' => return String::from_utf16(&units).map_err(|_| "half a pair is in a string".to_string()),
                '\\' => units.push(self.escape()?),
                letter if letter.is_control() => return Err(format!("the control {:?} is in a string", letter)),
                letter => units.extend_from_slice(letter.encode_utf16(&mut [0; 2])),
            }
        }
    }

    fn escape(&mut self) -> Result<u16, String> {
        let plain = [("\"", b'"'), ("\\", b'\\'), ("/", b'/'), ("n", b'\n'), ("t", b'\t'), ("r", b'\r')];
        if let Some((_word, byte)) = plain.into_iter().find(|(word, _byte)| self.passes(word)) {
            return Ok(u16::from(byte));
        }
        self.needs("u")?;
        let digits = self.rest.get(..4).ok_or("an escape breaks off")?;
        self.rest = &self.rest[4..];
        u16::from_str_radix(digits, 16).map_err(|_| format!("{} are no hex digits", digits))
    }
}
