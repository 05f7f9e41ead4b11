//! As much of gRPC as a client of etcd needs: unary calls, one at a time, over one connection of HTTP/2 (RFC 9113).

use std::io::{self, BufReader, Read, Write};
use std::os::unix::net::UnixStream;
use std::path::Path;
use std::time::Duration;

const DATA: u8 = 0;
const HEADERS: u8 = 1;
const RESET: u8 = 3;
const SETTINGS: u8 = 4;
const PING: u8 = 6;
const GO_AWAY: u8 = 7;
const WINDOW_UPDATE: u8 = 8;
/// Of settings and pings: an answer. Of headers and data: the end of a side.
const ACK_OR_END: u8 = 1;
const END_HEADERS: u8 = 4;

/// A connection.
pub struct Connection {
    stream: BufReader<UnixStream>,
    /// The stream of the next call.
    next: u32,
}

impl Connection {
    /// To a socket, without TLS.
    pub fn connect(socket: &Path, most: Duration) -> io::Result<Connection> {
        let mut stream = UnixStream::connect(socket)?;
        stream.set_read_timeout(Some(most))?;
        let mut bytes = b"PRI * HTTP/2.0\r\n\r\nSM\r\n\r\n".to_vec();
        frame(&mut bytes, SETTINGS, 0, 0, &[]);
        // Room for all answers of a run, so that none has to be given later.
        frame(
            &mut bytes,
            WINDOW_UPDATE,
            0,
            0,
            &0x7000_0000_u32.to_be_bytes(),
        );
        stream.write_all(&bytes)?;
        Ok(Connection {
            stream: BufReader::new(stream),
            next: 1,
        })
    }

    /// Calls a method, `/package.Service/Method`, with a message, and gives the message that is answered.
    pub fn call(&mut self, method: &str, message: &[u8]) -> io::Result<Vec<u8>> {
        let stream = self.next;
        self.next += 2;
        let mut bytes = Vec::new();
        frame(&mut bytes, HEADERS, END_HEADERS, stream, &headers(method));
        let mut data = vec![0];
        data.extend((message.len() as u32).to_be_bytes());
        data.extend(message);
        frame(&mut bytes, DATA, ACK_OR_END, stream, &data);
        self.stream.get_mut().write_all(&bytes)?;
        self.answer(stream)
    }

    /// The message that comes on a stream, once that has ended.
    fn answer(&mut self, stream: u32) -> io::Result<Vec<u8>> {
        let mut message = Vec::new();
        loop {
            let (kind, flags, of, bytes) = self.read()?;
            match kind {
                DATA if of == stream => message.extend(bytes),
                HEADERS if of == stream && flags & ACK_OR_END != 0 => break,
                SETTINGS | PING if flags & ACK_OR_END == 0 => {
                    let mut ack = Vec::new();
                    let echo = if kind == PING { &bytes[..] } else { &[] };
                    frame(&mut ack, kind, ACK_OR_END, 0, echo);
                    self.stream.get_mut().write_all(&ack)?;
                }
                RESET | GO_AWAY => return Err(io::Error::other("the call was ended")),
                _ => {}
            }
        }
        // A call that failed has no message, but a status among its trailers.
        match message.len() {
            0..=4 => Err(io::Error::other("the call failed")),
            _ => Ok(message.split_off(5)),
        }
    }

    /// The next frame: kind, flags, stream and what it carries.
    fn read(&mut self) -> io::Result<(u8, u8, u32, Vec<u8>)> {
        let mut head = [0; 9];
        self.stream.read_exact(&mut head)?;
        let [a, b, c, kind, flags, stream @ ..] = head;
        let mut bytes = vec![0; u32::from_be_bytes([0, a, b, c]) as usize];
        self.stream.read_exact(&mut bytes)?;
        Ok((kind, flags, u32::from_be_bytes(stream) & 0x7FFF_FFFF, bytes))
    }
}

fn frame(out: &mut Vec<u8>, kind: u8, flags: u8, stream: u32, bytes: &[u8]) {
    out.extend(&(bytes.len() as u32).to_be_bytes()[1..]);
    out.extend([kind, flags]);
    out.extend(stream.to_be_bytes());
    out.extend(bytes);
}

/// The headers of a call, each written out whole (RFC 7541, 6.2.2); all are shorter than 127 bytes.
fn headers(method: &str) -> Vec<u8> {
    let mut out = Vec::new();
    let all = [
        (":method", "POST"),
        (":scheme", "http"),
        (":path", method),
        (":authority", "localhost"),
        ("te", "trailers"),
        ("content-type", "application/grpc"),
    ];
    for (name, value) in all {
        out.push(0);
        for text in [name, value] {
            out.push(text.len() as u8);
            out.extend(text.bytes());
        }
    }
    out
}

/// Puts a field of bytes behind a message of protobuf.
pub fn put(out: &mut Vec<u8>, number: u8, bytes: &[u8]) {
    out.push(number << 3 | 2);
    varint(out, bytes.len() as u64);
    out.extend(bytes);
}

/// Puts a field with a number behind a message of protobuf.
pub fn put_number(out: &mut Vec<u8>, number: u8, value: u64) {
    out.push(number << 3);
    varint(out, value);
}

fn varint(out: &mut Vec<u8>, mut value: u64) {
    while value >= 0x80 {
        out.push(value as u8 | 0x80);
        value >>= 7;
    }
    out.push(value as u8);
}

/// A field of a message of protobuf.
pub enum Field<'a> {
    /// A number.
    Number(u64),
    /// Bytes, or a message within.
    Bytes(&'a [u8]),
}

/// The fields of a message with their numbers, as far as it is good.
pub fn fields(mut bytes: &[u8]) -> Vec<(u64, Field<'_>)> {
    let mut all = Vec::new();
    while let Some(key) = take_varint(&mut bytes) {
        let Some(value) = take_varint(&mut bytes) else {
            break;
        };
        let field = match key & 7 {
            0 => Field::Number(value),
            2 if value as usize <= bytes.len() => {
                let (field, rest) = bytes.split_at(value as usize);
                bytes = rest;
                Field::Bytes(field)
            }
            _ => break,
        };
        all.push((key >> 3, field));
    }
    all
}

fn take_varint(bytes: &mut &[u8]) -> Option<u64> {
    let mut value = 0;
    for shift in (0..64).step_by(7) {
        let (&byte, rest) = bytes.split_first()?;
        *bytes = rest;
        value |= u64::from(byte & 0x7F) << shift;
        if byte < 0x80 {
            return Some(value);
        }
    }
    None
}
