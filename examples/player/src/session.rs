//! Sockets by URL, and a small client of WebSockets. It takes no part in what is proved.
use std::io::{self, ErrorKind, Read, Write};
use std::net::{TcpStream, UdpSocket};
use std::time::Duration;

const TEXT: u8 = 1;
const CLOSE: u8 = 8;
const PING: u8 = 9;
const PONG: u8 = 10;

/// The host and port of a URL, and its path.
fn parts(url: &str) -> io::Result<(&str, &str)> {
    let rest = url.split_once("://").map(|(_, rest)| rest).ok_or(ErrorKind::InvalidInput)?;
    Ok(rest.split_once('/').map_or((rest, ""), |(host, path)| (host, path)))
}

/// A socket for datagrams to this URL. A read waits for at most 2 ms.
pub fn datagrams(url: &str) -> io::Result<UdpSocket> {
    let socket = UdpSocket::bind("0.0.0.0:0")?;
    socket.connect(parts(url)?.0)?;
    socket.set_read_timeout(Some(Duration::from_millis(2)))?;
    Ok(socket)
}

/// A session, and what came on it.
pub struct Session {
    stream: TcpStream,
    came: Vec<u8>,
}

impl Session {
    pub fn open(url: &str) -> io::Result<Session> {
        let (host, path) = parts(url)?;
        let mut stream = TcpStream::connect(host)?;
        write!(
            stream,
            "GET /{path} HTTP/1.1\r\nHost: {host}\r\nUpgrade: websocket\r\nConnection: Upgrade\r\n\
             Sec-WebSocket-Key: dGhlIHNhbXBsZSBub25jZQ==\r\nSec-WebSocket-Version: 13\r\n\r\n"
        )?;
        let mut head = Vec::new();
        let mut byte = [0];
        // byte by byte, so that no frame is read with the head
        while !head.ends_with(b"\r\n\r\n") {
            stream.read_exact(&mut byte)?;
            head.push(byte[0]);
        }
        if !head.starts_with(b"HTTP/1.1 101") {
            return Err(ErrorKind::ConnectionRefused.into());
        }
        stream.set_nonblocking(true)?;
        Ok(Session { stream, came: Vec::new() })
    }

    pub fn send(&mut self, text: &str) -> io::Result<()> {
        self.send_frame(TEXT, text.as_bytes())
    }

    fn send_frame(&mut self, opcode: u8, bytes: &[u8]) -> io::Result<()> {
        let mut frame = vec![0x80 | opcode];
        match bytes.len() {
            len @ 0..=125 => frame.push(0x80 | len as u8),
            len => frame.extend([0xfe, (len >> 8) as u8, len as u8]),
        }
        frame.extend([0; 4]); // a mask of zeros
        frame.extend(bytes);
        self.stream.write_all(&frame)
    }

    /// The next text, or None where none is there. An error where the session is over.
    pub fn next(&mut self) -> io::Result<Option<String>> {
        loop {
            while let Some((opcode, bytes)) = self.frame() {
                match opcode {
                    TEXT => return String::from_utf8(bytes).map(Some).map_err(|_| ErrorKind::InvalidData.into()),
                    CLOSE => return Err(ErrorKind::ConnectionAborted.into()),
                    PING => self.send_frame(PONG, &bytes)?,
                    _ => {}
                }
            }
            let mut piece = [0; 4096];
            match self.stream.read(&mut piece) {
                Ok(0) => return Err(ErrorKind::ConnectionAborted.into()),
                Ok(len) => self.came.extend(&piece[..len]),
                Err(fault) if fault.kind() == ErrorKind::WouldBlock => return Ok(None),
                Err(fault) => return Err(fault),
            }
        }
    }

    /// The next whole frame, of at most 65,535 bytes.
    fn frame(&mut self) -> Option<(u8, Vec<u8>)> {
        let short = usize::from(*self.came.get(1)? & 127);
        let (head, len) = if short < 126 {
            (2, short)
        } else {
            (4, usize::from(*self.came.get(2)?) << 8 | usize::from(*self.came.get(3)?))
        };
        let bytes = self.came.get(head..head + len)?.to_vec();
        let opcode = self.came[0] & 15;
        self.came.drain(..head + len);
        Some((opcode, bytes))
    }
}
