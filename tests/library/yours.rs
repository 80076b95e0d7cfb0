// What docs/LIBRARY.md's loop in Rust leaves to the application, so that it compiles.
mod yours {
    use css_companion::{Cause, Position};

    pub struct Udp(bool);
    impl Udp {
        pub fn none() -> Udp {
            Udp(false)
        }
        pub fn open(url: &str) -> Udp {
            Udp(!url.is_empty())
        }
        pub fn is_open(&self) -> bool {
            self.0
        }
        pub fn take(&mut self) -> Option<Vec<u8>> {
            None
        }
        pub fn send(&mut self, datagram: &[u8]) {
            self.0 &= datagram.len() == 32;
        }
    }

    pub struct WebSocket(bool);
    impl WebSocket {
        pub fn none() -> WebSocket {
            WebSocket(false)
        }
        pub fn open(url: &str) -> WebSocket {
            WebSocket(!url.is_empty())
        }
        pub fn is_open(&self) -> bool {
            self.0
        }
        pub fn has_just_closed(&mut self) -> bool {
            false
        }
        pub fn take(&mut self) -> Option<String> {
            None
        }
        pub fn send(&mut self, text: &str) {
            self.0 &= !text.is_empty();
        }
    }

    pub fn wait_for_any(_reading: u64) {}
    pub fn follow(_position: &Position) {}
    pub fn show(_cause: Cause) {}
}

fn main() -> Result<(), Error> {
    // nobody is there
    assert!(!visit("", 0)?);
    Ok(())
}
