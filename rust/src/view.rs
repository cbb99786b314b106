//! Views of a volume, and reads and writes on them.

use std::ops::Range;

use crate::raw::{self, ViewNumbers};
use crate::{Layout, Refusal, KEY_SIZE};

/// A volume to read and write. Anybody may make one up: each call checks that it is sound.
#[derive(Clone, Debug, PartialEq, Eq, Hash)]
pub struct View {
    /// The volume's layout.
    pub layout: Layout,
    /// The host's bytes that writes may not touch, if any.
    pub protected: Option<Range<u64>>,
    /// Whether every write is refused. A write that would touch the protected range sets it.
    pub locked: bool,
}

impl View {
    /// A view of a volume alone.
    pub fn plain(layout: &Layout) -> Result<View, Refusal> {
        let mut numbers = [0; 13];
        Refusal::check(raw::view_plain(&layout.numbers(), &mut numbers), None)?;
        Ok(View::made(layout, &numbers))
    }

    /// A view of an outer volume whose writes may not touch a hidden volume's data area.
    pub fn protected(outer: &Layout, hidden: &Layout) -> Result<View, Refusal> {
        let mut numbers = [0; 13];
        Refusal::check(raw::view_protected(&outer.numbers(), &hidden.numbers(), &mut numbers), None)?;
        Ok(View::made(outer, &numbers))
    }

    fn made(layout: &Layout, numbers: &ViewNumbers) -> View {
        let [.., protected, first, end, locked] = *numbers;
        View { layout: *layout, protected: (protected != 0).then_some(first..end), locked: locked != 0 }
    }

    /// The view as the library's thirteen numbers.
    pub fn numbers(&self) -> ViewNumbers {
        let mut numbers = [0; 13];
        numbers[..9].copy_from_slice(&self.layout.numbers());
        if let Some(range) = &self.protected {
            numbers[9..12].copy_from_slice(&[1, range.start, range.end]);
        }
        numbers[12] = self.locked as u64;
        numbers
    }

    /// Fills the buffer with `count` sectors of the image, from user sector `first` on. The image is the
    /// whole host, the buffer 512 bytes for each sector.
    ///
    /// Refusals are `Unsound`, `ImageSize`, `Count`, `BufferSize`, `Unaligned` and `Outside`, tested in this order;
    /// they leave the buffer as it was. `Unaligned` is for disks whose own sectors are larger than 512 bytes: see
    /// [`Layout::alignment`].
    pub fn read(&self, image: &[u8], first: u64, count: u64, buffer: &mut [u8]) -> Result<(), Refusal> {
        let mut sector = [0];
        let answer = raw::read(&self.numbers(), image, first, count, buffer, &mut sector);
        Refusal::check(answer, Some(sector[0]))
    }

    /// Copies the buffer into `count` sectors of the image, from user sector `first` on.
    ///
    /// Refusals are those of [`read`](View::read), then `Locked` and `Protected`; they leave the image as it was, and
    /// `Protected` locks the view.
    ///
    /// ```
    /// # use ondristela::{open, Location, Refusal, View};
    /// # let outer_header = include_bytes!("../../samples/tcplay-1048576-code0.header");
    /// # let hidden_header = include_bytes!("../../samples/tcplay-1048576-code1.header");
    /// # let mut image = vec![0; 1_048_576];
    /// # let outer = open(outer_header, &[Location::Standard.code()], 1_048_576)?;
    /// # let hidden = open(hidden_header, &[Location::Hidden.code()], 1_048_576)?;
    /// // The hidden volume's first sector is the outer one's user sector 1,024.
    /// let mut view = View::protected(&outer, &hidden)?;
    /// let refusal = view.write(&mut image, 1_000, 100, &[0x5A; 100 * 512]).unwrap_err();
    /// assert_eq!(refusal, Refusal::Protected { sector: 1_024 });
    /// # Ok::<(), Refusal>(())
    /// ```
    pub fn write(&mut self, image: &mut [u8], first: u64, count: u64, buffer: &[u8]) -> Result<(), Refusal> {
        let mut numbers = self.numbers();
        let mut sector = [0];
        let answer = raw::write(&mut numbers, image, first, count, buffer, &mut sector);
        self.locked = numbers[12] != 0;
        Refusal::check(answer, Some(sector[0]))
    }

    /// Fills the buffer as [`read`](View::read) does, and deciphers each sector in it, with AES-256 in XTS and its host
    /// sector as the tweak number. What a wrong key gives looks random.
    ///
    /// Refusals are those of [`read`](View::read), in its order; they leave the buffer as it was. What
    /// [`encipher`](crate::encipher) says of keys and of timing is true here too.
    pub fn read_plaintext(
        &self,
        key: &[u8; KEY_SIZE],
        image: &[u8],
        first: u64,
        count: u64,
        buffer: &mut [u8],
    ) -> Result<(), Refusal> {
        let mut sector = [0];
        let answer = raw::read_plaintext(&self.numbers(), key, image, first, count, buffer, &mut sector);
        Refusal::check(answer, Some(sector[0]))
    }

    /// Stores the buffer as [`write`](View::write) does, each sector enciphered with AES-256 in XTS and its host sector
    /// as the tweak number. The buffer is left as it is.
    ///
    /// Refusals are those of [`write`](View::write), in its order; they leave the image as it was, and `Protected` locks
    /// the view. What [`encipher`](crate::encipher) says of keys and of timing is true here too.
    ///
    /// ```
    /// # use ondristela::{key_bytes, open, Location, Refusal, View, KEY_SIZE};
    /// # let header = include_bytes!("../../samples/tcplay-1048576-code0.header");
    /// # let codes = [Location::Standard.code()];
    /// # let mut image = vec![0; 1_048_576];
    /// # let keys = key_bytes(header, &codes, 1_048_576)?;
    /// # let mut view = View::plain(&open(header, &codes, 1_048_576)?)?;
    /// // The volume is enciphered with AES alone.
    /// let key = keys[..KEY_SIZE].try_into().expect("64 of 256 bytes");
    /// view.write_plaintext(key, &mut image, 0, 1, &[0x5A; 512])?;
    ///
    /// let mut sector = [0; 512];
    /// view.read_plaintext(key, &image, 0, 1, &mut sector)?;
    /// assert_eq!(sector, [0x5A; 512]);
    ///
    /// // On the host it stands enciphered.
    /// view.read(&image, 0, 1, &mut sector)?;
    /// assert_ne!(sector, [0x5A; 512]);
    /// # Ok::<(), Refusal>(())
    /// ```
    pub fn write_plaintext(
        &mut self,
        key: &[u8; KEY_SIZE],
        image: &mut [u8],
        first: u64,
        count: u64,
        buffer: &[u8],
    ) -> Result<(), Refusal> {
        let mut numbers = self.numbers();
        let mut sector = [0];
        let answer = raw::write_plaintext(&mut numbers, key, image, first, count, buffer, &mut sector);
        self.locked = numbers[12] != 0;
        Refusal::check(answer, Some(sector[0]))
    }

    /// Where a read takes its bytes, for an image that is not in memory: the extent's first byte in the host.
    /// Refusals are those of [`read`](View::read), for an image and a buffer of these sizes.
    pub fn read_extent(
        &self,
        image_size: u64,
        first: u64,
        count: u64,
        buffer_size: u64,
    ) -> Result<u64, Refusal> {
        let numbers = self.numbers();
        let (mut offset, mut sector) = ([0], [0]);
        let answer =
            raw::read_extent(&numbers, image_size, first, count, buffer_size, &mut offset, &mut sector);
        Refusal::check(answer, Some(sector[0]))?;
        Ok(offset[0])
    }

    /// Where a write puts its bytes, for an image that is not in memory: the extent's first byte in the host.
    /// Refusals are those of [`write`](View::write), for an image and a buffer of these sizes; `Protected` locks
    /// the view.
    pub fn write_extent(
        &mut self,
        image_size: u64,
        first: u64,
        count: u64,
        buffer_size: u64,
    ) -> Result<u64, Refusal> {
        let mut numbers = self.numbers();
        let (mut offset, mut sector) = ([0], [0]);
        let answer =
            raw::write_extent(&mut numbers, image_size, first, count, buffer_size, &mut offset, &mut sector);
        self.locked = numbers[12] != 0;
        Refusal::check(answer, Some(sector[0]))?;
        Ok(offset[0])
    }
}
