// What `csi-replay answer` does, as a plain program over hash maps: frames borrowed from the file's bytes, rows found by id and
// by name, replies spelled once. It has no proof and no nodes; `bench/answers` compares its output with the program's, byte by byte.
use std::collections::HashMap;
use std::io::Write;

type Number = (u64, u64);

struct Row<'a> {
    id: u64,
    is_live: bool,
    capacity: u64,
    capabilities: Vec<Capability<'a>>,
    last: Number,
    kind: u8,
    reply: Reply,
}

#[derive(Clone, Copy, PartialEq)]
struct Capability<'a> {
    fs_type: Option<&'a str>,
    mode: u8,
}

#[derive(Clone, Copy)]
struct Reply {
    status: u8,
    id: u64,
    detail: &'static str,
}

const OK: Reply = Reply { status: 0, id: 0, detail: "" };

fn refused(status: u8, detail: &'static str) -> Reply {
    Reply { status, id: 0, detail }
}

enum Call<'a> {
    Create { name: &'a str, required: u64, limit: u64, capabilities: Vec<Capability<'a>> },
    Delete { id: u64 },
    Publish { id: u64, capability: Capability<'a> },
    Unpublish { id: u64 },
}

struct Fields<'a>(&'a [u8]);

impl<'a> Fields<'a> {
    fn bytes(&mut self, count: usize) -> Option<&'a [u8]> {
        if self.0.len() < count {
            return None;
        }
        let (front, rest) = self.0.split_at(count);
        self.0 = rest;
        Some(front)
    }

    fn byte(&mut self) -> Option<u8> {
        Some(self.bytes(1)?[0])
    }

    fn word(&mut self) -> Option<u64> {
        Some(u64::from_be_bytes(self.bytes(8)?.try_into().ok()?))
    }

    fn id(&mut self) -> Option<u64> {
        self.word().filter(|id| *id != 0)
    }

    fn text(&mut self, least: usize, most: usize) -> Option<&'a str> {
        let count = self.byte()? as usize;
        if count < least || most < count {
            return None;
        }
        std::str::from_utf8(self.bytes(count)?).ok()
    }

    fn capability(&mut self) -> Option<Capability<'a>> {
        let fs_type = match self.byte()? {
            0 => None,
            1 => Some(self.text(0, 128)?),
            _ => return None,
        };
        let mode = self.byte().filter(|mode| (1..=5).contains(mode))?;
        Some(Capability { fs_type, mode })
    }

    fn call(&mut self, kind: u8) -> Option<Call<'a>> {
        Some(match kind {
            1 => {
                let name = self.text(1, 128)?;
                let (required, limit) = (self.word()?, self.word()?);
                let count = self.byte().filter(|count| *count <= 8)?;
                let capabilities = (0..count).map(|_| self.capability()).collect::<Option<Vec<_>>>()?;
                Call::Create { name, required, limit, capabilities }
            }
            2 => Call::Delete { id: self.id()? },
            3 => {
                let id = self.id()?;
                self.text(1, 255)?;
                let capability = self.capability()?;
                self.byte().filter(|flag| *flag <= 1)?;
                Call::Publish { id, capability }
            }
            4 => {
                let id = self.id()?;
                self.text(1, 255)?;
                Call::Unpublish { id }
            }
            _ => return None,
        })
    }
}

#[derive(Default)]
struct Controller<'a> {
    rows: HashMap<u64, Row<'a>>,
    ids: HashMap<&'a str, u64>,
}

impl<'a> Controller<'a> {
    fn create(&mut self, number: Number, name: &'a str, required: u64, limit: u64, wished: Vec<Capability<'a>>) -> Reply {
        if wished.is_empty() {
            return refused(3, "capabilities");
        }
        let most = (1 << 63) - 1;
        if (required == 0 && limit == 0) || required > most || limit > most {
            return refused(3, "capacity");
        }
        if limit != 0 && limit < required {
            return refused(11, "range");
        }
        if let Some(id) = self.ids.get(name) {
            let row = &self.rows[id];
            let serves = required <= row.capacity && (limit == 0 || row.capacity <= limit);
            if row.is_live && serves && wished.iter().all(|one| row.capabilities.contains(one)) {
                return Reply { id: *id, ..OK };
            }
            return refused(6, "name");
        }
        if self.rows.len() >= 4096 {
            return refused(8, "volumes");
        }
        let id = self.rows.len() as u64 + 1;
        let capacity = if required == 0 { limit.min(1 << 30) } else { required };
        let reply = Reply { id, ..OK };
        let row = Row { id, is_live: true, capacity, capabilities: wished, last: number, kind: 1, reply };
        self.rows.insert(id, row);
        self.ids.insert(name, id);
        reply
    }

    // The kind and the reply that a call gets.
    fn step(&mut self, number: Number, kind: u8, call: Call<'a>) -> (u8, Reply) {
        let id = match &call {
            Call::Create { name, .. } => self.ids.get(name).copied().unwrap_or(0),
            Call::Delete { id } | Call::Publish { id, .. } | Call::Unpublish { id } => *id,
        };
        if let Some(row) = self.rows.get(&id) {
            if number == row.last {
                return (row.kind, row.reply);
            }
            if number < row.last {
                return (kind, refused(10, "stale"));
            }
        }
        let reply = match call {
            Call::Create { name, required, limit, capabilities } => self.create(number, name, required, limit, capabilities),
            Call::Delete { .. } => {
                if let Some(row) = self.rows.get_mut(&id) {
                    row.is_live = false;
                }
                OK
            }
            Call::Publish { capability, .. } => match self.rows.get(&id) {
                Some(row) if row.is_live => {
                    debug_assert!(row.id == id && capability.mode != 0);
                    refused(5, "node")
                }
                _ => refused(5, "volume"),
            },
            Call::Unpublish { .. } => OK,
        };
        if let Some(row) = self.rows.get_mut(&id) {
            (row.last, row.kind, row.reply) = (number, kind, reply);
        }
        (kind, reply)
    }
}

fn put_reply(out: &mut Vec<u8>, number: Number, kind: u8, reply: Reply) {
    out.extend_from_slice(&(29 + reply.detail.len() as u32).to_be_bytes());
    out.extend_from_slice(&[1, 128 + kind]);
    out.extend_from_slice(&number.0.to_be_bytes());
    out.extend_from_slice(&number.1.to_be_bytes());
    out.extend_from_slice(&[0, reply.status]);
    out.extend_from_slice(&reply.id.to_be_bytes());
    out.push(reply.detail.len() as u8);
    out.extend_from_slice(reply.detail.as_bytes());
}

fn answer<'a>(controller: &mut Controller<'a>, body: &'a [u8], out: &mut Vec<u8>) -> Option<()> {
    let mut fields = Fields(body);
    if fields.byte()? != 1 {
        return None;
    }
    let kind = fields.byte()?;
    let number = (fields.word()?, fields.word()?);
    if fields.byte()? != 0 {
        return None;
    }
    let call = fields.call(kind)?;
    if !fields.0.is_empty() {
        return None;
    }
    let (kind, reply) = controller.step(number, kind, call);
    put_reply(out, number, kind, reply);
    Some(())
}

fn main() -> std::io::Result<()> {
    let input = std::fs::read(std::env::args().nth(1).expect("a file"))?;
    let mut controller = Controller::default();
    let mut out = Vec::new();
    let mut output = std::io::stdout().lock();
    let mut rest = &input[..];
    while rest.len() >= 4 {
        let size = u32::from_be_bytes(rest[..4].try_into().unwrap()) as usize;
        if size > 1280 || rest.len() - 4 < size || answer(&mut controller, &rest[4..4 + size], &mut out).is_none() {
            break;
        }
        rest = &rest[4 + size..];
        if out.len() >= 4096 {
            output.write_all(&out)?;
            out.clear();
        }
    }
    output.write_all(&out)?;
    output.flush()
}
