//! The converter from .bench text in plain safe Rust, with no proof: names as slices of the text, looked up one after the other or by a hash table.

use std::collections::HashMap;

const KINDS: [&[u8]; 8] = [b"BUFF", b"NOT", b"AND", b"NAND", b"OR", b"NOR", b"XOR", b"XNOR"];

const BUFFER: usize = 10_484;

/// Names in the order of their definition, and where each stands.
struct Names<'a, const HASHED: bool> {
    list: Vec<&'a [u8]>,
    places: HashMap<&'a [u8], usize>,
}

impl<'a, const HASHED: bool> Names<'a, HASHED> {
    fn new() -> Self {
        Names { list: Vec::new(), places: HashMap::new() }
    }

    fn place(&self, name: &[u8]) -> Option<usize> {
        if HASHED { self.places.get(name).copied() } else { self.list.iter().position(|other| *other == name) }
    }

    fn add(&mut self, name: &'a [u8]) {
        if HASHED {
            self.places.insert(name, self.list.len());
        }
        self.list.push(name);
    }
}

enum Statement<'a> {
    Blank,
    Input(&'a [u8]),
    Output(&'a [u8]),
    Gate(&'a [u8], u8, Vec<&'a [u8]>),
}

/// What is left of a line, read from its start.
struct Rest<'a>(&'a [u8]);

impl<'a> Rest<'a> {
    fn skip(&mut self) {
        while let [b' ', rest @ ..] = self.0 {
            self.0 = rest;
        }
    }

    fn name(&mut self) -> Option<&'a [u8]> {
        self.skip();
        let end = self.0.iter().position(|byte| !byte.is_ascii_alphanumeric() && *byte != b'_').unwrap_or(self.0.len());
        let (name, rest) = self.0.split_at(end);
        self.0 = rest;
        (1..=16).contains(&name.len()).then_some(name)
    }

    fn sign(&mut self) -> Option<u8> {
        self.skip();
        let (first, rest) = self.0.split_first()?;
        self.0 = rest;
        Some(*first)
    }

    fn end(&mut self) -> Option<()> {
        self.skip();
        self.0.is_empty().then_some(())
    }
}

/// The statement of a line, or none where it has another form.
fn statement(line: &[u8]) -> Option<Statement<'_>> {
    let mut rest = Rest(line);
    rest.skip();
    if rest.0.is_empty() || rest.0[0] == b'#' {
        return Some(Statement::Blank);
    }
    let name = rest.name()?;
    match rest.sign()? {
        b'(' => {
            let inner = rest.name()?;
            (rest.sign()? == b')').then_some(())?;
            rest.end()?;
            match name {
                b"INPUT" => Some(Statement::Input(inner)),
                b"OUTPUT" => Some(Statement::Output(inner)),
                _ => None,
            }
        }
        b'=' => {
            let word = rest.name()?;
            let kind = KINDS.iter().position(|kind| *kind == word)? as u8 + 1;
            (rest.sign()? == b'(').then_some(())?;
            let mut pins = Vec::new();
            loop {
                pins.push(rest.name()?);
                match rest.sign()? {
                    b',' => {}
                    b')' => break,
                    _ => return None,
                }
            }
            rest.end()?;
            Some(Statement::Gate(name, kind, pins))
        }
        _ => None,
    }
}

/// The lines of a text, each without its end.
fn lines(text: &[u8]) -> impl Iterator<Item = &[u8]> {
    text.split_inclusive(|byte| *byte == b'\n').map(|line| match line {
        [line @ .., b'\r', b'\n'] | [line @ .., b'\n'] => line,
        line => line,
    })
}

/// Writes the netlist file of a text and gives its length, or the number of the refusal.
pub fn convert<const HASHED: bool>(text: &[u8], netlist: &mut [u8]) -> Result<usize, u32> {
    if netlist.len() < BUFFER {
        return Err(4);
    }
    let (mut inputs, mut gates, mut outputs) = (Names::<HASHED>::new(), Names::<HASHED>::new(), Names::<HASHED>::new());
    let mut kinds = Vec::new();
    for line in lines(text) {
        let known = |name: &[u8]| inputs.place(name).is_some() || gates.place(name).is_some();
        let nets = inputs.list.len() + gates.list.len();
        match statement(line).ok_or(80u32)? {
            Statement::Blank => {}
            Statement::Input(name) => {
                if known(name) {
                    return Err(81);
                }
                if inputs.list.len() == 64 || nets == 512 {
                    return Err(82);
                }
                inputs.add(name);
            }
            Statement::Output(name) => {
                if outputs.place(name).is_some() {
                    return Err(81);
                }
                if outputs.list.len() == 64 {
                    return Err(82);
                }
                outputs.add(name);
            }
            Statement::Gate(name, kind, pins) => {
                if known(name) || !pins.iter().all(|pin| known(pin)) {
                    return Err(81);
                }
                let most = if kind <= 2 { 1 } else { 8 };
                if gates.list.len() == 511 || nets == 512 || most < pins.len() {
                    return Err(82);
                }
                gates.add(name);
                kinds.push((kind, pins));
            }
        }
    }
    let net = |name: &[u8]| inputs.place(name).or_else(|| gates.place(name).map(|place| inputs.list.len() + place));
    let mut nets: Vec<usize> = outputs.list.iter().map(|name| net(name).ok_or(81u32)).collect::<Result<_, _>>()?;
    if inputs.list.is_empty() || nets.is_empty() {
        return Err(82);
    }
    nets.sort_unstable();
    let mut at = 0;
    let mut put = |bytes: &[u8]| {
        netlist[at..at + bytes.len()].copy_from_slice(bytes);
        at += bytes.len();
        at
    };
    put(b"NL");
    for count in [inputs.list.len(), gates.list.len(), nets.len()] {
        put(&(count as u16).to_le_bytes());
    }
    for (kind, pins) in &kinds {
        put(&[b'G', b'T', *kind, pins.len() as u8]);
        for pin in pins {
            put(&(net(pin).expect("a known name") as u16).to_le_bytes());
        }
    }
    let mut end = 0;
    for output in nets {
        put(b"OU");
        end = put(&(output as u16).to_le_bytes());
    }
    Ok(end)
}
