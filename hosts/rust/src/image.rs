//! The memory of a controller, and the same as bytes.

/// How many bytes [`to_image`](crate::Pipettor::to_image) gives.
pub const IMAGE: usize = 1 + 4 + 4 + 320 + 8 * 8 + 26 * 4 + 4 + 256;

/// Numbers at their own widths, as the library is lent them. Any values may be lent.
#[derive(Clone, Debug, PartialEq, Eq)]
pub(crate) struct Image {
    pub wide: [u64; 8],
    pub count: [u32; 1],
    pub words: [u32; 26],
    pub address: [u8; 1],
    pub line: [u8; 4],
    pub small: [u8; 4],
    pub frame: [u8; 320],
    pub text: [u8; 256],
}

/// Takes bytes from the front of a row of them.
struct Reader<'a>(&'a [u8]);

impl Reader<'_> {
    fn take<const N: usize>(&mut self) -> [u8; N] {
        let (front, rest) = self.0.split_at(N);
        self.0 = rest;
        let mut bytes = [0; N];
        bytes.copy_from_slice(front);
        bytes
    }
}

/// Puts bytes one behind the other.
struct Writer {
    bytes: [u8; IMAGE],
    at: usize,
}

impl Writer {
    fn put(&mut self, bytes: &[u8]) {
        self.bytes[self.at..self.at + bytes.len()].copy_from_slice(bytes);
        self.at += bytes.len();
    }
}

impl Image {
    /// No controller yet: it is made in here.
    pub const EMPTY: Image = Image {
        wide: [0; 8],
        count: [0; 1],
        words: [0; 26],
        address: [0; 1],
        line: [0; 4],
        small: [0; 4],
        frame: [0; 320],
        text: [0; 256],
    };

    /// In the order in which the library is lent the parts, numbers with their lowest byte first.
    pub fn to_bytes(&self) -> [u8; IMAGE] {
        let mut to = Writer { bytes: [0; IMAGE], at: 0 };
        to.put(&self.address);
        to.put(&self.line);
        to.put(&self.count[0].to_le_bytes());
        to.put(&self.frame);
        for n in &self.wide {
            to.put(&n.to_le_bytes());
        }
        for n in &self.words {
            to.put(&n.to_le_bytes());
        }
        to.put(&self.small);
        to.put(&self.text);
        to.bytes
    }

    /// The same, read.
    pub fn from_bytes(bytes: &[u8; IMAGE]) -> Image {
        let mut from = Reader(bytes);
        let mut image = Image::EMPTY;
        image.address = from.take();
        image.line = from.take();
        image.count = [u32::from_le_bytes(from.take())];
        image.frame = from.take();
        for n in &mut image.wide {
            *n = u64::from_le_bytes(from.take());
        }
        for n in &mut image.words {
            *n = u32::from_le_bytes(from.take());
        }
        image.small = from.take();
        image.text = from.take();
        image
    }
}
