//! Builds the formats of document 01 from their fields. It builds what it is told, also where
//! that is misshapen.

/// A number in sevens, in its shortest form.
pub fn sevens(n: u64) -> Vec<u8> {
    let mut out = Vec::new();
    push_sevens(&mut out, n);
    out
}

/// The same behind other bytes.
fn push_sevens(out: &mut Vec<u8>, mut n: u64) {
    while n > 0x7F {
        out.push(n as u8 | 0x80);
        n >>= 7;
    }
    out.push(n as u8);
}

/// S-1-authority-words, in MS-DTYP bytes.
pub fn sid(authority: u64, words: &[u32]) -> Vec<u8> {
    let mut out = vec![1, words.len() as u8];
    out.extend(&authority.to_be_bytes()[2..]);
    for word in words {
        out.extend(word.to_le_bytes());
    }
    out
}

/// The numbers of an identity in a token record: count, authority, words.
pub fn numbers_of(sid: &[u8]) -> Vec<u64> {
    let authority = sid[2..8].iter().fold(0, |sum, &byte| sum << 8 | u64::from(byte));
    let mut out = vec![u64::from(sid[1]), authority];
    for word in sid[8..].chunks(4) {
        out.push(word.iter().rev().fold(0, |sum, &byte| sum << 8 | u64::from(byte)));
    }
    out
}

/// A token, whatever its flags and counts say of it.
#[derive(Clone)]
pub struct Token {
    pub flags: u32,
    pub privileges: u64,
    pub user: Vec<u8>,
    pub groups: Vec<(Vec<u8>, u32)>,
    pub confinement: Option<(Vec<u8>, Vec<Vec<u8>>)>,
}

impl Token {
    pub fn of(user: &[u8]) -> Token {
        Token { flags: 0, privileges: 0, user: user.to_vec(), groups: vec![], confinement: None }
    }

    pub fn group(mut self, sid: &[u8], attributes: u32) -> Token {
        self.groups.push((sid.to_vec(), attributes));
        self
    }

    pub fn privileges(mut self, privileges: u64) -> Token {
        self.privileges = privileges;
        self
    }

    /// Confined, with these capabilities and no others.
    pub fn confined(mut self, identity: &[u8], capabilities: &[&[u8]]) -> Token {
        self.flags |= 1;
        let capabilities = capabilities.iter().map(|c| c.to_vec()).collect();
        self.confinement = Some((identity.to_vec(), capabilities));
        self
    }

    pub fn exempt(mut self) -> Token {
        self.flags |= 2;
        self
    }

    /// The record's numbers, in order.
    pub fn numbers(&self) -> Vec<u64> {
        let mut out = vec![1, u64::from(self.flags), self.privileges];
        out.extend(numbers_of(&self.user));
        out.push(self.groups.len() as u64);
        for (group, attributes) in &self.groups {
            out.extend(numbers_of(group));
            out.push(u64::from(*attributes));
        }
        if let Some((identity, capabilities)) = &self.confinement {
            out.extend(numbers_of(identity));
            out.push(capabilities.len() as u64);
            for capability in capabilities {
                out.extend(numbers_of(capability));
            }
        }
        out
    }

    /// The packed record.
    pub fn record(&self) -> Vec<u8> {
        let mut out = Vec::new();
        for number in self.numbers() {
            push_sevens(&mut out, number);
        }
        out
    }

    /// The flat listing.
    pub fn listing(&self) -> Vec<u8> {
        let mut out = self.flags.to_le_bytes().to_vec();
        out.extend(self.privileges.to_le_bytes());
        out.extend(&self.user);
        out.extend((self.groups.len() as u32).to_le_bytes());
        for (group, attributes) in &self.groups {
            out.extend(group);
            out.extend(attributes.to_le_bytes());
        }
        if let Some((identity, capabilities)) = &self.confinement {
            out.extend(identity);
            out.extend((capabilities.len() as u32).to_le_bytes());
            for capability in capabilities {
                out.extend(capability);
            }
        }
        out
    }
}

/// An entry with a mask and a SID, and the size that fits.
pub fn entry(kind: u8, flags: u8, mask: u32, sid: &[u8]) -> Vec<u8> {
    long_entry(kind, flags, mask, sid, &[])
}

/// The same with spare bytes behind the SID.
pub fn long_entry(kind: u8, flags: u8, mask: u32, sid: &[u8], spare: &[u8]) -> Vec<u8> {
    let mut body = mask.to_le_bytes().to_vec();
    body.extend(sid);
    body.extend(spare);
    bare_entry(kind, flags, &body)
}

pub fn allow(mask: u32, sid: &[u8]) -> Vec<u8> {
    entry(0, 0, mask, sid)
}

pub fn deny(mask: u32, sid: &[u8]) -> Vec<u8> {
    entry(1, 0, mask, sid)
}

/// An entry with any body, and the size that fits.
pub fn bare_entry(kind: u8, flags: u8, body: &[u8]) -> Vec<u8> {
    let mut out = vec![kind, flags];
    out.extend((4 + body.len() as u16).to_le_bytes());
    out.extend(body);
    out
}

/// A list of revision 2, with the size and the count that fit.
pub fn acl(entries: &[Vec<u8>]) -> Vec<u8> {
    let body = entries.concat();
    let mut out = vec![2, 0];
    out.extend((8 + body.len() as u16).to_le_bytes());
    out.extend((entries.len() as u16).to_le_bytes());
    out.extend([0, 0]);
    out.extend(body);
    out
}

/// A descriptor's parts, to be laid out in this order from byte 20 on.
#[derive(Clone, Default)]
pub struct Descriptor {
    pub owner: Option<Vec<u8>>,
    pub group: Option<Vec<u8>>,
    pub sacl: Option<Vec<u8>>,
    pub dacl: Option<Vec<u8>>,
}

impl Descriptor {
    pub fn owned_by(owner: &[u8]) -> Descriptor {
        Descriptor { owner: Some(owner.to_vec()), ..Descriptor::default() }
    }

    pub fn group(mut self, group: &[u8]) -> Descriptor {
        self.group = Some(group.to_vec());
        self
    }

    pub fn sacl(mut self, list: &[u8]) -> Descriptor {
        self.sacl = Some(list.to_vec());
        self
    }

    pub fn dacl(mut self, list: &[u8]) -> Descriptor {
        self.dacl = Some(list.to_vec());
        self
    }

    pub fn bytes(&self) -> Vec<u8> {
        let mut control = 0x8000u16;
        if self.sacl.is_some() {
            control |= 0x0010;
        }
        if self.dacl.is_some() {
            control |= 0x0004;
        }
        let mut out = vec![1, 0];
        out.extend(control.to_le_bytes());
        out.resize(20, 0);
        let parts = [&self.owner, &self.group, &self.sacl, &self.dacl];
        for (field, part) in parts.into_iter().enumerate() {
            if let Some(part) = part {
                let at = out.len() as u32;
                out[4 + 4 * field..8 + 4 * field].copy_from_slice(&at.to_le_bytes());
                out.extend(part);
            }
        }
        out
    }
}

/// A rule's five sections; an empty one is absent.
#[derive(Clone, Default)]
pub struct Rule {
    pub applies_to: Vec<u8>,
    pub effective_dacl: Vec<u8>,
    pub effective_sacl: Vec<u8>,
    pub staged_dacl: Vec<u8>,
    pub staged_sacl: Vec<u8>,
}

impl Rule {
    pub fn of(effective_dacl: &[u8]) -> Rule {
        Rule { effective_dacl: effective_dacl.to_vec(), ..Rule::default() }
    }

    pub fn staged(mut self, staged_dacl: &[u8]) -> Rule {
        self.staged_dacl = staged_dacl.to_vec();
        self
    }

    pub fn applies_to(mut self, condition: &[u8]) -> Rule {
        self.applies_to = condition.to_vec();
        self
    }

    pub fn sections(&self) -> [&[u8]; 5] {
        [
            &self.applies_to,
            &self.effective_dacl,
            &self.effective_sacl,
            &self.staged_dacl,
            &self.staged_sacl,
        ]
    }
}

/// A policy of version 1 with the count that fits.
pub fn policy(rules: &[Rule]) -> Vec<u8> {
    let mut out = vec![1];
    out.extend((rules.len() as u32).to_le_bytes());
    for rule in rules {
        for section in rule.sections() {
            out.extend((section.len() as u32).to_le_bytes());
            out.extend(section);
        }
    }
    out
}

/// A question, as the library takes it.
#[derive(Clone)]
pub struct Question {
    pub kind: u32,
    pub mask: u32,
    pub token: Vec<u8>,
    pub self_id: Vec<u8>,
    pub descriptor: Vec<u8>,
    pub policy: Vec<u8>,
}

impl Question {
    /// Its question file.
    pub fn file(&self) -> Vec<u8> {
        let mut out = sevens(u64::from(self.kind));
        out.extend(sevens(u64::from(self.mask)));
        for part in [&self.token, &self.self_id, &self.descriptor, &self.policy] {
            out.extend(sevens(part.len() as u64));
            out.extend(part);
        }
        out
    }
}
