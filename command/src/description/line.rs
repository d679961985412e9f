//! A line: its kind, what it is of, and its fields, each a name and a value.

use super::words;
use crate::bits;
use crate::text;

pub struct Line {
    /// From 1.
    pub number: usize,
    pub kind: Vec<u8>,
    pub operand: Vec<u8>,
    fields: Vec<(Vec<u8>, Vec<u8>)>,
}

impl Line {
    /// Nothing for a line without words.
    pub fn parse(number: usize, bytes: &[u8]) -> Result<Option<Line>, String> {
        let mut words = words::split(bytes)?.into_iter();
        let Some(kind) = words.next() else {
            return Ok(None);
        };
        let operand = words
            .next()
            .ok_or_else(|| format!("nothing follows {}", text::readable(&kind)))?;
        let mut fields: Vec<(Vec<u8>, Vec<u8>)> = Vec::new();
        while let Some(name) = words.next() {
            let shown = text::readable(&name);
            if fields.iter().any(|(other, _)| *other == name) {
                return Err(format!("{shown} is given twice"));
            }
            let value = words.next();
            fields.push((
                name,
                value.ok_or_else(|| format!("nothing follows {shown}"))?,
            ));
        }
        Ok(Some(Line {
            number,
            kind,
            operand,
            fields,
        }))
    }

    /// Takes a field out, if it is there.
    pub fn take(&mut self, name: &str) -> Option<Vec<u8>> {
        let at = self
            .fields
            .iter()
            .position(|(other, _)| other == name.as_bytes())?;
        Some(self.fields.remove(at).1)
    }

    /// Takes a field that the line must have.
    pub fn require(&mut self, name: &str) -> Result<Vec<u8>, String> {
        self.take(name).ok_or_else(|| format!("{name} is missing"))
    }

    /// Takes a number from 0 to `last`, if it is there.
    pub fn take_number(&mut self, name: &str, last: u32) -> Result<Option<u32>, String> {
        self.take(name)
            .map(|value| number(name, &value, last))
            .transpose()
    }

    pub fn require_number(&mut self, name: &str, last: u32) -> Result<u32, String> {
        number(name, &self.require(name)?, last)
    }

    /// Takes rights, none if the field is missing.
    pub fn take_rights(&mut self, name: &str) -> Result<u32, String> {
        const FORM: &str = "none or some of read, write and execute with commas between them";
        self.take_parsed(name, text::parse_rights, FORM)
    }

    /// Takes the rights of owner, group and others, none if the field is missing.
    pub fn take_bits(&mut self, name: &str) -> Result<u32, String> {
        self.take_parsed(name, bits::parse, bits::FORM)
    }

    fn take_parsed(
        &mut self,
        name: &str,
        parse: fn(&[u8]) -> Option<u32>,
        form: &str,
    ) -> Result<u32, String> {
        let Some(value) = self.take(name) else {
            return Ok(0);
        };
        parse(&value).ok_or_else(|| format!("{name} is {}, not {form}", text::readable(&value)))
    }

    /// The operand as a number from 0 to `last`.
    pub fn operand_number(&self, last: u32) -> Result<u32, String> {
        number(&text::readable(&self.kind), &self.operand, last)
    }

    /// Refuses fields that nothing took.
    pub fn finish(self) -> Result<(), String> {
        match self.fields.first() {
            None => Ok(()),
            Some((name, _)) => Err(format!(
                "{} is no field of a line {}",
                text::readable(name),
                text::readable(&self.kind)
            )),
        }
    }
}

fn number(name: &str, value: &[u8], last: u32) -> Result<u32, String> {
    let digits = std::str::from_utf8(value).ok();
    digits
        .filter(|digits| digits.bytes().all(|digit| digit.is_ascii_digit()))
        .and_then(|digits| digits.parse().ok())
        .filter(|&number| number <= last)
        .ok_or_else(|| {
            format!(
                "{name} is {}, not a number from 0 to {last}",
                text::readable(value)
            )
        })
}
