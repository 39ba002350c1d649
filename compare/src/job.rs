//! A job: the lists that are lent to one call, and their bytes.

/// The lists of one call.
#[derive(Clone, Debug, Default, PartialEq, Eq)]
pub struct Job {
    pub source: Vec<u8>,
    pub codes: Vec<u32>,
    pub glyphs: Vec<u16>,
    pub kept: Vec<u32>,
    pub map: Vec<u16>,
    pub requested: Vec<u16>,
}

impl Job {
    /// The job as the program reads it; the lists may be longer than the program's limits.
    pub fn to_bytes(&self) -> Vec<u8> {
        let pair = |(c, g): (&u32, &u16)| [&c.to_be_bytes()[..], &g.to_be_bytes()].concat();
        let pairs: Vec<u8> = self.codes.iter().zip(&self.glyphs).flat_map(pair).collect();
        let kept: Vec<u8> = self.kept.iter().flat_map(|c| c.to_be_bytes()).collect();
        let numbers = |list: &[u16]| list.iter().flat_map(|n| n.to_be_bytes()).collect::<Vec<u8>>();
        let mut bytes = Vec::new();
        for (mark, payload) in [
            (b"TB", &self.source),
            (b"PR", &pairs),
            (b"KP", &kept),
            (b"MP", &numbers(&self.map)),
            (b"RQ", &numbers(&self.requested)),
        ] {
            bytes.extend_from_slice(mark);
            bytes.extend_from_slice(&(payload.len() as u32).to_be_bytes());
            bytes.extend_from_slice(payload);
        }
        bytes
    }

    /// The job that the program reads from its bytes, if they are one within its limits.
    pub fn from_bytes(bytes: &[u8]) -> Option<Self> {
        let mut rest = bytes;
        let mut payload = |mark: &[u8], width| {
            let after = rest.strip_prefix(mark)?;
            let (length, after) = after.split_first_chunk()?;
            let payload;
            (payload, rest) = after.split_at_checked(u32::from_be_bytes(*length) as usize)?;
            let entries = payload.chunks_exact(width);
            entries.remainder().is_empty().then_some(entries)
        };
        let number = |entry: &[u8]| entry.iter().fold(0, |n, &b| n << 8 | u32::from(b));
        let source = payload(b"TB", 1)?.map(|entry| entry[0]).collect();
        let pairs = payload(b"PR", 6)?.map(|entry| (number(&entry[..4]), number(&entry[4..]) as u16));
        let (codes, glyphs) = pairs.unzip();
        let kept = payload(b"KP", 4)?.map(number).collect();
        let map = payload(b"MP", 2)?.map(|entry| number(entry) as u16).collect();
        let requested = payload(b"RQ", 2)?.map(|entry| number(entry) as u16).collect();
        let job = Self { source, codes, glyphs, kept, map, requested };
        (rest.is_empty() && job.within_program_limits()).then_some(job)
    }

    /// Whether the program takes lists of these lengths.
    pub fn within_program_limits(&self) -> bool {
        self.source.len() <= 32_768
            && self.codes.len() == self.glyphs.len()
            && self.codes.len() <= 2_048
            && self.kept.len() <= 4_096
            && self.map.len() <= 8_192
            && self.requested.len() <= 2_048
    }
}
