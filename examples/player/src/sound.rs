//! A WAV file of one channel, 16 bits and 48,000 samples a second.
use std::fs::File;
use std::io::{self, BufWriter, Seek, SeekFrom, Write};

pub const SAMPLES: u64 = 48_000;

pub struct Sound {
    file: BufWriter<File>,
    pub written: u64,
}

impl Sound {
    pub fn create(path: &str) -> io::Result<Sound> {
        let mut sound = Sound { file: BufWriter::new(File::create(path)?), written: 0 };
        sound.head()?;
        Ok(sound)
    }

    fn head(&mut self) -> io::Result<()> {
        let bytes = (2 * self.written) as u32;
        self.file.write_all(b"RIFF")?;
        self.file.write_all(&(36 + bytes).to_le_bytes())?;
        self.file.write_all(b"WAVEfmt \x10\0\0\0\x01\0\x01\0")?;
        self.file.write_all(&(SAMPLES as u32).to_le_bytes())?;
        self.file.write_all(&(2 * SAMPLES as u32).to_le_bytes())?;
        self.file.write_all(b"\x02\0\x10\0data")?;
        self.file.write_all(&bytes.to_le_bytes())
    }

    /// A sample of -1 to 1.
    pub fn put(&mut self, sample: f64) -> io::Result<()> {
        self.written += 1;
        self.file.write_all(&((sample * 32_000.0) as i16).to_le_bytes())
    }

    /// Writes the head anew, with the lengths.
    pub fn finish(mut self) -> io::Result<()> {
        self.file.seek(SeekFrom::Start(0))?;
        self.head()?;
        self.file.flush()
    }
}
