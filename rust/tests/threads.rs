//! What README says of threads: reads go on at once, a view and its image are shared under one mutex, and each copy
//! of a view has a write lock of its own.

use std::sync::Mutex;
use std::thread;

use ondristela::{open, Location, Refusal, View};

const OUTER_HEADER: &[u8; 512] = include_bytes!("../../samples/tcplay-1048576-code0.header");
const HIDDEN_HEADER: &[u8; 512] = include_bytes!("../../samples/tcplay-1048576-code1.header");
const HOST_SIZE: usize = 1_048_576;
/// A user sector of the outer volume that is the hidden one's.
const PROTECTED: u64 = 1024;
const THREADS: u64 = 4;

fn view() -> View {
    let outer = open(OUTER_HEADER, &[Location::Standard.code()], HOST_SIZE as u64).unwrap();
    let hidden = open(HIDDEN_HEADER, &[Location::Hidden.code()], HOST_SIZE as u64).unwrap();
    View::protected(&outer, &hidden).unwrap()
}

#[test]
fn threads_read_one_image_by_one_view() {
    let view = view();
    let image: Vec<u8> = (0..HOST_SIZE).map(|index| (index / 512) as u8).collect();
    thread::scope(|scope| {
        for number in 0..THREADS {
            let (view, image) = (&view, &image);
            scope.spawn(move || {
                for first in (number..1536).step_by(THREADS as usize) {
                    let mut sector = [0; 512];
                    assert_eq!(view.read(image, first, 1, &mut sector), Ok(()));
                    assert_eq!(sector, [(256 + first) as u8; 512]);
                }
            });
        }
    });
}

#[test]
fn one_view_stops_all_threads() {
    let shared = Mutex::new((view(), vec![0; HOST_SIZE]));
    let write = |first, byte| {
        let (view, image) = &mut *shared.lock().unwrap();
        view.write(image, first, 1, &[byte; 512])
    };
    thread::scope(|scope| {
        for number in 0..THREADS {
            scope.spawn(move || assert_eq!(write(number, 0xE7), Ok(())));
        }
    });
    assert_eq!(write(PROTECTED, 0xE7), Err(Refusal::Protected { sector: PROTECTED }));
    thread::scope(|scope| {
        for number in 0..THREADS {
            scope.spawn(move || assert_eq!(write(number, 0), Err(Refusal::Locked)));
        }
    });
    let (_, image) = shared.into_inner().unwrap();
    let written = image.iter().filter(|&&byte| byte == 0xE7).count();
    assert_eq!(written, THREADS as usize * 512);
}

#[test]
fn copies_of_a_view_have_their_own_locks() {
    let mut image = vec![0; HOST_SIZE];
    let mut one = view();
    let mut other = one.clone();
    assert_eq!(one.write(&mut image, PROTECTED, 1, &[1; 512]), Err(Refusal::Protected { sector: PROTECTED }));
    assert_eq!(one.write(&mut image, 0, 1, &[1; 512]), Err(Refusal::Locked));
    assert_eq!(other.write(&mut image, 0, 1, &[1; 512]), Ok(()));
}
