//! How sectors are copied: as they stand on the image, or as plaintext.

use ondristela::{decipher, encipher, KEY_SIZE, SECTOR_SIZE};

type Key = [u8; KEY_SIZE];

/// What is done to sectors between an image and a file. A key is never printed.
pub enum Form {
    /// They stay as they are, enciphered.
    AsTheyStand,
    /// They are enciphered on the image and in the clear in the file, with AES-256 in XTS and this key.
    Plaintext(Key),
}

impl Form {
    /// The form that is asked for, on a volume that has this key.
    pub fn of(plaintext: bool, key: Key) -> Form {
        match plaintext {
            true => Form::Plaintext(key),
            false => Form::AsTheyStand,
        }
    }

    /// Deciphers sectors that were read from this offset of the image on, if plaintext is asked for.
    pub fn decipher(&self, sectors: &mut [u8], offset: u64) {
        self.each(sectors, offset, decipher)
    }

    /// Enciphers sectors that are to be written from this offset of the image on, if they are plaintext.
    pub fn encipher(&self, sectors: &mut [u8], offset: u64) {
        self.each(sectors, offset, encipher)
    }

    // An extent starts at a sector of the image, whose number is the tweak number.
    fn each(&self, sectors: &mut [u8], offset: u64, step: fn(&Key, u64, &mut [u8; SECTOR_SIZE])) {
        let Form::Plaintext(key) = self else { return };
        let first = offset / SECTOR_SIZE as u64;
        for (sector, number) in sectors.chunks_exact_mut(SECTOR_SIZE).zip(first..) {
            step(key, number, sector.try_into().expect("512 bytes"));
        }
    }

    /// What a report adds where plaintext was asked for.
    pub fn told(&self, done: &str) -> String {
        match self {
            Form::Plaintext(_) => format!(", {done}"),
            Form::AsTheyStand => String::new(),
        }
    }
}

#[cfg(test)]
mod tests {
    use super::Form;
    use ondristela::encipher;

    const KEY: [u8; 64] = [0xA1; 64];

    /// The second sector from byte 131,072 on is the image's sector 257.
    #[test]
    fn each_sector_has_its_number() {
        let (mut sectors, mut second) = ([0x5A; 1_024], [0x5A; 512]);
        encipher(&KEY, 257, &mut second);
        Form::of(true, KEY).encipher(&mut sectors, 131_072);
        assert_eq!(sectors[512..], second);
        assert_ne!(sectors[..512], second);
        Form::of(true, KEY).decipher(&mut sectors, 131_072);
        assert_eq!(sectors, [0x5A; 1_024]);
    }

    #[test]
    fn nothing_is_done_unasked() {
        let mut sectors = [0x5A; 1_024];
        Form::of(false, KEY).encipher(&mut sectors, 131_072);
        Form::of(false, KEY).decipher(&mut sectors, 131_584);
        assert_eq!((sectors, Form::AsTheyStand.told("deciphered")), ([0x5A; 1_024], String::new()));
    }
}
