//! What to do after a refusal.

use ondristela::Refusal;

/// A sentence for a technician. The refusal's own sentence tells when it is given.
pub fn advice(refusal: Refusal) -> &'static str {
    match refusal {
        Refusal::Lengths => "give one deciphered header, a file of exactly 512 bytes",
        Refusal::HostSize => {
            "give the whole partition or image file that holds the volume; a copy may have been cut short"
        }
        Refusal::NoHeader => "decipher the header again, and check the password, the key files and the cipher",
        Refusal::Version | Refusal::Reserved | Refusal::Flags | Refusal::SectorSize => {
            "check that it is the right header; a volume with such a header cannot be worked on here"
        }
        Refusal::HiddenSize => {
            "are the two headers exchanged? --outer takes the standard volume's, --hidden the hidden volume's"
        }
        Refusal::DataArea => {
            "check that it is the right image, and whole; of a volume on a partition give the partition, such \
             as /dev/sdb1, and not the disk"
        }
        Refusal::NotNested => "check that both headers are of this image",
        Refusal::ImageSize => "let nothing else use the image meanwhile, and check that it is still whole",
        Refusal::Outside { .. } => "ask for sectors that the volume has",
        Refusal::Unaligned => {
            "ask for whole sectors of the disk; to write a part of one, read all of it first, put the part in \
             its place, and write it back"
        }
        Refusal::Locked => "open the volume again",
        Refusal::Protected { .. } => {
            "write outside the protected sectors; what is meant for the hidden volume is written to it by name"
        }
        Refusal::Code | Refusal::Magic | Refusal::Unsound | Refusal::Count | Refusal::BufferSize => {
            "report this: the program never asks for such a thing"
        }
    }
}
