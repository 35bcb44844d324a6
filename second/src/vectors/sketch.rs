//! A record as named runs of octets. It knows nothing of what the reader
//! wants, so that any field can be cut, dropped or spoiled.

#[derive(Clone)]
struct Field {
    name: String,
    octets: Vec<u8>,
}

/// Where a field lies in the message.
pub struct Span {
    pub name: String,
    pub start: usize,
    pub end: usize,
}

#[derive(Clone)]
pub struct Sketch {
    timestamp: u32,
    code: u16,
    subtype: u16,
    fields: Vec<Field>,
}

impl Sketch {
    pub fn new(code: u16, subtype: u16) -> Sketch {
        Sketch { timestamp: 1_300_475_700, code, subtype, fields: Vec::new() }
    }

    pub fn at(mut self, timestamp: u32) -> Sketch {
        self.timestamp = timestamp;
        self
    }

    /// Another type and subtype in front of the same message.
    pub fn retyped(&self, code: u16, subtype: u16) -> Sketch {
        Sketch { code, subtype, ..self.clone() }
    }

    /// Adds a number of `width` octets.
    pub fn n(self, name: &str, width: usize, value: u64) -> Sketch {
        self.raw(name, &number(width, value))
    }

    pub fn raw(mut self, name: &str, octets: &[u8]) -> Sketch {
        self.fields.push(Field { name: name.to_string(), octets: octets.to_vec() });
        self
    }

    /// The same record with other octets in one field.
    pub fn set(&self, name: &str, octets: &[u8]) -> Sketch {
        let mut changed = self.clone();
        changed.field_mut(name).octets = octets.to_vec();
        changed
    }

    /// The same record with another number in one field.
    pub fn set_n(&self, name: &str, value: u64) -> Sketch {
        let mut changed = self.clone();
        let field = changed.field_mut(name);
        field.octets = number(field.octets.len(), value);
        changed
    }

    /// The same, for fields of the header too.
    pub fn with(&self, name: &str, value: u64) -> Sketch {
        match name {
            "timestamp" => self.clone().at(value as u32),
            "subtype" => self.retyped(self.code, value as u16),
            _ => self.set_n(name, value),
        }
    }

    /// The same record without anything behind the named field.
    pub fn up_to(&self, name: &str) -> Sketch {
        let mut changed = self.clone();
        let last = changed.position(name);
        changed.fields.truncate(last + 1);
        changed
    }

    /// Where the named field starts in the message.
    pub fn start_of(&self, name: &str) -> usize {
        self.spans().swap_remove(self.position(name)).start
    }

    pub fn spans(&self) -> Vec<Span> {
        let mut start = 0;
        let mut spans = Vec::new();
        for field in &self.fields {
            let end = start + field.octets.len();
            spans.push(Span { name: field.name.clone(), start, end });
            start = end;
        }
        spans
    }

    pub fn message(&self) -> Vec<u8> {
        self.fields.iter().flat_map(|field| field.octets.clone()).collect()
    }

    /// The record with the Length that it has.
    pub fn record(&self) -> Vec<u8> {
        self.claiming(self.message().len() as u32)
    }

    /// The record with a Length of the caller's choice; no octet goes or comes.
    pub fn claiming(&self, length: u32) -> Vec<u8> {
        let mut octets = self.timestamp.to_be_bytes().to_vec();
        octets.extend(self.code.to_be_bytes());
        octets.extend(self.subtype.to_be_bytes());
        octets.extend(length.to_be_bytes());
        octets.extend(self.message());
        octets
    }

    /// The same record with only the first octets of its message.
    pub fn ending_at(&self, size: usize) -> Sketch {
        let mut changed = self.clone();
        let spans = self.spans();
        for (field, span) in changed.fields.iter_mut().zip(spans) {
            field.octets.truncate(size.saturating_sub(span.start));
        }
        changed
    }

    /// The same record with something behind its last field.
    pub fn followed_by(&self, extra: &[u8]) -> Sketch {
        self.clone().raw("extra", extra)
    }

    fn position(&self, name: &str) -> usize {
        let found = self.fields.iter().position(|field| field.name == name);
        found.unwrap_or_else(|| panic!("no field {name}"))
    }

    fn field_mut(&mut self, name: &str) -> &mut Field {
        let position = self.position(name);
        &mut self.fields[position]
    }
}

fn number(width: usize, value: u64) -> Vec<u8> {
    value.to_be_bytes()[8 - width..].to_vec()
}
