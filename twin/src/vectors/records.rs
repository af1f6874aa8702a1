//! The file of vectors: for each record 8 digits, the length of its body,
//! then the body: a header line ended by LF, then the payload. The header has
//! the name of a layer, the letter of a kind, and numbers.

use crate::lines::find_lf;

/// The vectors, as they stand in the file.
#[derive(Default)]
pub struct Records {
    layer: &'static str,
    bytes: Vec<u8>,
    count: usize,
}

impl Records {
    /// The records that are added from now on are of this layer.
    pub fn begin(&mut self, layer: &'static str) {
        self.layer = layer;
    }

    /// Adds a record with a payload and a header line, whose LF and whose layer
    /// are added to it.
    pub fn add(&mut self, header: &str, payload: &[u8]) {
        let header = format!("{} {header}\n", self.layer);
        let length = header.len() + payload.len();
        self.bytes.extend(format!("{length:08}{header}").bytes());
        self.bytes.extend(payload);
        self.count += 1;
    }

    /// How many records there are.
    pub fn count(&self) -> usize {
        self.count
    }

    /// The bytes of the file.
    pub fn bytes(&self) -> &[u8] {
        &self.bytes
    }
}

/// One record taken apart: the fields of its header, and its payload.
pub struct Record<'a> {
    /// The name of the layer.
    pub layer: &'a str,
    /// The letter of the kind.
    pub kind: &'a str,
    /// The numbers after the letter.
    pub numbers: Vec<u64>,
    /// Everything after the header line.
    pub payload: &'a [u8],
}

/// Takes the first record off a file; nothing if it isn't well formed.
pub fn take_record<'a>(file: &mut &'a [u8]) -> Option<Record<'a>> {
    let digits = std::str::from_utf8(file.get(..8)?).ok()?;
    let end = 8 + digits.parse::<usize>().ok()?;
    let body = file.get(8..end)?;
    *file = &file[end..];
    let lf = find_lf(body, 0)?;
    let mut fields = std::str::from_utf8(&body[..lf]).ok()?.split(' ');
    let (layer, kind) = (fields.next()?, fields.next()?);
    let numbers = fields.map(|field| field.parse().ok());
    Some(Record {
        layer,
        kind,
        numbers: numbers.collect::<Option<_>>()?,
        payload: &body[lf + 1..],
    })
}

#[cfg(test)]
mod tests {
    use super::*;

    #[test]
    fn records_come_back_as_they_were_added() {
        let mut records = Records::default();
        records.begin("numerals");
        records.add("N 1 12", b"7");
        records.begin("sheets");
        records.add("U", b"\n a");
        assert_eq!(
            records.bytes(),
            b"00000017numerals N 1 12\n700000012sheets U\n\n a"
        );
        let mut file = records.bytes();
        let first = take_record(&mut file).unwrap();
        assert_eq!((first.layer, first.kind), ("numerals", "N"));
        assert_eq!((first.numbers, first.payload), (vec![1, 12], &b"7"[..]));
        assert_eq!(take_record(&mut file).unwrap().payload, b"\n a");
        assert!(file.is_empty());
    }
}
