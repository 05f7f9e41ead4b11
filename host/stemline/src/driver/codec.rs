//! The messages between hosts, as bytes.
//!
//! A frame is the number of the bytes behind it, then a version, a kind, the group's mark, and what the kind has.
//! All numbers have the lowest byte first:
//!
//! | Kind | What it has |
//! |---|---|
//! | 1 hello | n (1), own number, 255 for a station (1), the length of the group's name (1), the name |
//! | 2 block | the digest: turn (4), commits (4), digest (8); an own block of its sender (512) |
//! | 3 turn | the digest (16); 1 where something is asked there (1) |
//! | 4 ask | the first slot (4) and the one behind the last (4) of which blocks are asked for |
//! | 5 blocks | the first slot (4), the turn (4), how many blocks (1), the blocks (512 each) |
//!
//! Decoding is total: any bytes give a frame or say in words why not, and each frame has one form only.

use std::{error, fmt, str};

use crate::{Digest, BLOCK, KEPT, NO_NUMBER};

/// The most bytes of a frame, its length in front included.
pub const FRAME: usize = LENGTH + FRONT + 9 + KEPT * BLOCK;
const LENGTH: usize = 4;
/// Version, kind, mark.
const FRONT: usize = 1 + 1 + 8;
const VERSION: u8 = 1;

/// What one host says to another.
#[derive(Clone, Debug, PartialEq, Eq)]
pub struct Frame {
    /// The mark of the group: the digest of its size, name and values to start with.
    pub group: u64,
    /// What is said.
    pub body: Body,
}

/// What a frame says.
#[derive(Clone, Debug, PartialEq, Eq)]
pub enum Body {
    /// Who is here: the first frame on a link.
    Hello {
        /// The group's name.
        name: String,
        /// How many replicas it has.
        replicas: u8,
        /// The number of the replica; `None` for a station.
        from: Option<u8>,
    },
    /// An own block of the replica that it comes from.
    Block {
        /// The block.
        block: Box<[u8; BLOCK]>,
        /// What its sender has committed.
        digest: Digest,
    },
    /// Where the sender is.
    Turn {
        /// What it has committed, by its turn.
        digest: Digest,
        /// Whether something is asked there, so that nobody is to wait with an empty block.
        asked: bool,
    },
    /// Asks for the blocks of these slots.
    Ask {
        /// The first one.
        from: u32,
        /// The one behind the last.
        to: u32,
    },
    /// Blocks of consecutive slots, as a window or a journal has them.
    Blocks {
        /// The slot of the first one.
        from: u32,
        /// The turn of who sends them.
        turn: u32,
        /// At most 64; none where the first one that was asked for is not there.
        blocks: Vec<[u8; BLOCK]>,
    },
}

/// Why bytes are no frame. Both `{}` and `{:?}` write the words.
#[derive(Clone, Copy, PartialEq, Eq)]
pub enum FrameError {
    /// It would have so many bytes, and none has.
    Length(u32),
    /// It is of this version.
    Version(u8),
    /// It is of a kind that there is not.
    Kind(u8),
    /// It is not as its kind is.
    Form,
}

impl Frame {
    /// Its bytes, with their length in front, as they go over a link.
    ///
    /// A hello's name has 255 bytes at most and an answer 64 blocks; what is above is left out.
    pub fn encode(&self) -> Vec<u8> {
        let mut bytes = vec![0; LENGTH];
        bytes.extend([VERSION, self.body.kind()]);
        bytes.extend(self.group.to_le_bytes());
        match &self.body {
            Body::Hello {
                name,
                replicas,
                from,
            } => {
                let name = &name.as_bytes()[..name.len().min(255)];
                bytes.extend([*replicas, from.unwrap_or(NO_NUMBER), name.len() as u8]);
                bytes.extend(name);
            }
            Body::Block { block, digest } => {
                put_digest(&mut bytes, digest);
                bytes.extend(block.iter());
            }
            Body::Turn { digest, asked } => {
                put_digest(&mut bytes, digest);
                bytes.push(u8::from(*asked));
            }
            Body::Ask { from, to } => {
                bytes.extend([*from, *to].map(u32::to_le_bytes).as_flattened())
            }
            Body::Blocks { from, turn, blocks } => {
                let blocks = &blocks[..blocks.len().min(KEPT)];
                bytes.extend([*from, *turn].map(u32::to_le_bytes).as_flattened());
                bytes.push(blocks.len() as u8);
                bytes.extend(blocks.as_flattened());
            }
        }
        let length = (bytes.len() - LENGTH) as u32;
        bytes[..LENGTH].copy_from_slice(&length.to_le_bytes());
        bytes
    }

    /// The frame of these bytes, without their length in front.
    pub fn decode(bytes: &[u8]) -> Result<Frame, FrameError> {
        let mut reader = Reader(bytes);
        let [version, kind] = reader.take()?;
        if version != VERSION {
            return Err(FrameError::Version(version));
        }
        let group = u64::from_le_bytes(reader.take()?);
        let body = match kind {
            1 => reader.hello()?,
            2 => Body::Block {
                digest: reader.digest()?,
                block: Box::new(reader.take()?),
            },
            3 => Body::Turn {
                digest: reader.digest()?,
                asked: reader.flag()?,
            },
            4 => Body::Ask {
                from: reader.number()?,
                to: reader.number()?,
            },
            5 => reader.blocks()?,
            kind => return Err(FrameError::Kind(kind)),
        };
        match reader.0 {
            [] => Ok(Frame { group, body }),
            _ => Err(FrameError::Form),
        }
    }
}

impl Body {
    fn kind(&self) -> u8 {
        match self {
            Body::Hello { .. } => 1,
            Body::Block { .. } => 2,
            Body::Turn { .. } => 3,
            Body::Ask { .. } => 4,
            Body::Blocks { .. } => 5,
        }
    }
}

fn put_digest(bytes: &mut Vec<u8>, digest: &Digest) {
    bytes.extend(digest.turn.to_le_bytes());
    bytes.extend(digest.commits.to_le_bytes());
    bytes.extend(digest.digest.to_le_bytes());
}

/// What is left to read.
struct Reader<'a>(&'a [u8]);

impl Reader<'_> {
    fn take<const COUNT: usize>(&mut self) -> Result<[u8; COUNT], FrameError> {
        let (taken, rest) = self.0.split_first_chunk().ok_or(FrameError::Form)?;
        self.0 = rest;
        Ok(*taken)
    }

    fn number(&mut self) -> Result<u32, FrameError> {
        Ok(u32::from_le_bytes(self.take()?))
    }

    fn flag(&mut self) -> Result<bool, FrameError> {
        match self.take()? {
            [0] => Ok(false),
            [1] => Ok(true),
            _ => Err(FrameError::Form),
        }
    }

    fn digest(&mut self) -> Result<Digest, FrameError> {
        Ok(Digest {
            turn: self.number()?,
            commits: self.number()?,
            digest: u64::from_le_bytes(self.take()?),
        })
    }

    fn hello(&mut self) -> Result<Body, FrameError> {
        let [replicas, from, length] = self.take()?;
        let name = self.0.split_at_checked(length.into());
        let (name, rest) = name.ok_or(FrameError::Form)?;
        self.0 = rest;
        let name = str::from_utf8(name).map_err(|_| FrameError::Form)?;
        Ok(Body::Hello {
            name: name.to_string(),
            replicas,
            from: (from != NO_NUMBER).then_some(from),
        })
    }

    fn blocks(&mut self) -> Result<Body, FrameError> {
        let (from, turn) = (self.number()?, self.number()?);
        let [count] = self.take()?;
        if usize::from(count) > KEPT {
            return Err(FrameError::Form);
        }
        let blocks = (0..count).map(|_| self.take()).collect::<Result<_, _>>()?;
        Ok(Body::Blocks { from, turn, blocks })
    }
}

/// Cuts what comes over a link into frames: one for each link, and a new one where the link is new.
///
/// ```
/// use stemline::driver::{Body, Frame, Frames};
///
/// let frame = Frame { group: 7, body: Body::Ask { from: 3, to: 5 } };
/// let bytes = frame.encode();
/// let mut frames = Frames::new();
/// frames.push(&bytes[..9]);
/// assert_eq!(frames.next(), None);
/// frames.push(&bytes[9..]);
/// assert_eq!(frames.next(), Some(Ok(frame)));
/// ```
#[derive(Debug, Default)]
pub struct Frames {
    bytes: Vec<u8>,
    /// Those that were given already.
    given: usize,
    broken: Option<FrameError>,
}

impl Frames {
    /// Of a link that is new.
    pub fn new() -> Frames {
        Frames::default()
    }

    /// Takes bytes that came. Who calls [`Frames::next`] until nothing comes before each of these has no more than
    /// one frame and these bytes in memory.
    pub fn push(&mut self, bytes: &[u8]) {
        self.bytes.drain(..self.given);
        self.given = 0;
        if self.broken.is_none() {
            self.bytes.extend(bytes);
        }
    }

    /// The next frame, if all of it has come. Where it is none, the link is to be closed: nothing more comes of it
    /// but this error.
    #[allow(clippy::should_implement_trait)] // After a `None` it may go on.
    pub fn next(&mut self) -> Option<Result<Frame, FrameError>> {
        if let Some(error) = self.broken {
            return Some(Err(error));
        }
        let rest = &self.bytes[self.given..];
        let (length, rest) = rest.split_first_chunk::<LENGTH>()?;
        let length = u32::from_le_bytes(*length);
        let whole = length as usize;
        let frame = match whole > FRAME - LENGTH {
            true => Err(FrameError::Length(length)),
            false => Frame::decode(rest.get(..whole)?),
        };
        self.given += LENGTH + whole;
        if let Err(error) = frame {
            (self.bytes, self.given, self.broken) = (Vec::new(), 0, Some(error));
        }
        Some(frame)
    }
}

impl fmt::Display for FrameError {
    fn fmt(&self, f: &mut fmt::Formatter) -> fmt::Result {
        match self {
            FrameError::Length(length) => {
                write!(
                    f,
                    "a frame of {length} bytes, and the longest has {}",
                    FRAME - LENGTH
                )
            }
            FrameError::Version(version) => write!(
                f,
                "a frame of version {version}, and this program knows version {VERSION}"
            ),
            FrameError::Kind(kind) => write!(f, "a frame of the unknown kind {kind}"),
            FrameError::Form => f.write_str("a frame that is not well formed"),
        }
    }
}

impl fmt::Debug for FrameError {
    fn fmt(&self, f: &mut fmt::Formatter) -> fmt::Result {
        fmt::Display::fmt(self, f)
    }
}

impl error::Error for FrameError {}

#[cfg(test)]
mod tests;
