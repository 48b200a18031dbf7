//! Packets made to order.

/// The fields that 01 reads, and the bytes after the header. The header always has its fixed 20 bytes, and more for a
/// longer `words`; where `words` is wrong, it is only the field that is.
#[derive(Clone, Debug)]
pub struct Ipv4 {
    pub version: u8,
    pub words: u8,
    pub fragment: u16,
    pub protocol: u8,
    pub source: u32,
    pub destination: u32,
    pub after: Vec<u8>,
}

impl Ipv4 {
    pub fn new(protocol: u8, source: u32, destination: u32, after: impl Into<Vec<u8>>) -> Self {
        Ipv4 { version: 4, words: 5, fragment: 0, protocol, source, destination, after: after.into() }
    }

    pub fn with_ports(protocol: u8, source: u32, destination: u32, ports: (u16, u16)) -> Self {
        Ipv4::new(protocol, source, destination, [ports.0.to_be_bytes(), ports.1.to_be_bytes()].concat())
    }

    /// Fields that 01 does not read, and options, hold bytes that would show if they were.
    pub fn bytes(&self) -> Vec<u8> {
        let mut bytes = vec![self.version << 4 | self.words, 0xb1, 0xb2, 0xb3, 0xb4, 0xb5];
        bytes.extend(self.fragment.to_be_bytes());
        bytes.extend([0xb8, self.protocol, 0xba, 0xbb]);
        bytes.extend(self.source.to_be_bytes());
        bytes.extend(self.destination.to_be_bytes());
        bytes.resize(bytes.len().max(4 * usize::from(self.words)), 0xbc);
        bytes.extend(&self.after);
        bytes
    }
}
