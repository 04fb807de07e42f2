//! The session of examples/session.in, made from Rust and printed as the listing prints it.

const BOOK: usize = 1456;
const STAMP: usize = 20;
const DESKS: usize = 2;
/// One for each desk.
const LIMITS: [usize; DESKS] = [3, 3];
const RELATIONS: [&str; 6] = ["", "before", "after", "same", "concurrent", "crossed"];

#[rustfmt::skip]
extern "C" {
    fn gulambitok_start(book: &mut [u8; BOOK], book_len: usize, desks: usize, phases: usize,
                        limits: &[usize; DESKS], limits_len: usize, seat_lag: usize, shelf_lag: usize,
                        back: usize, ahead: usize) -> u8;
    fn gulambitok_local(book: &mut [u8; BOOK], book_len: usize, desk: usize, keep: usize,
                        stamp: &mut [u8; STAMP], stamp_len: usize,
                        slot: Option<&mut u8>, slot_len: usize) -> u8;
    fn gulambitok_send(book: &mut [u8; BOOK], book_len: usize, desk: usize, to: usize, keep: usize,
                       stamp: &mut [u8; STAMP], stamp_len: usize, place: &mut u8, place_len: usize,
                       slot: Option<&mut u8>, slot_len: usize) -> u8;
    fn gulambitok_receive(book: &mut [u8; BOOK], book_len: usize, desk: usize, place: usize, keep: usize,
                          stamp: &mut [u8; STAMP], stamp_len: usize, learnt: &mut u8, learnt_len: usize,
                          slot: Option<&mut u8>, slot_len: usize) -> u8;
    fn gulambitok_reset(book: &mut [u8; BOOK], book_len: usize, desk: usize, keep: usize,
                        stamp: &mut [u8; STAMP], stamp_len: usize,
                        slot: Option<&mut u8>, slot_len: usize) -> u8;
    fn gulambitok_compare(book: &[u8; BOOK], book_len: usize, first: usize, second: usize,
                          answer: &mut u8, answer_len: usize) -> u8;
}

/// On a refusal nothing else was written, so the number stands alone.
fn print_line(answer: u8, fields: &str) {
    println!("{answer:03}{}", if answer == 0 { fields } else { "" });
}

fn stamp_fields(stamp: &[u8; STAMP]) -> String {
    let pair = |desk| format!(" {:03}.{:03}", stamp[4 + 2 * desk], stamp[5 + 2 * desk]);
    format!(" {:03}", stamp[2]) + &(0..stamp[3] as usize).map(pair).collect::<String>()
}

fn main() {
    let (mut book, mut stamp) = ([0; BOOK], [0; STAMP]);
    let (mut place, mut learnt, mut first, mut second, mut relation) = (0, 0, 0, 0, 0);
    // Each length below is that of the array or byte before it, 0 where there is none. No two overlap.
    unsafe {
        let answer = gulambitok_start(&mut book, BOOK, DESKS, 3, &LIMITS, DESKS, 1, 1, 1, 1);
        print_line(answer, "");
        let answer = gulambitok_local(&mut book, BOOK, 0, 1, &mut stamp, STAMP, Some(&mut first), 1);
        print_line(answer, &(stamp_fields(&stamp) + &format!(" {first:03}")));
        let answer = gulambitok_send(&mut book, BOOK, 0, 1, 0, &mut stamp, STAMP, &mut place, 1, None, 0);
        print_line(answer, &(format!(" {place:03}") + &stamp_fields(&stamp)));
        let answer = gulambitok_receive(&mut book, BOOK, 1, place.into(), 1, &mut stamp, STAMP,
                                        &mut learnt, 1, Some(&mut second), 1);
        print_line(answer, &(stamp_fields(&stamp) + &format!(" {learnt:03} {second:03}")));
        let answer = gulambitok_compare(&book, BOOK, first.into(), second.into(), &mut relation, 1);
        print_line(answer, &format!(" {}", RELATIONS[relation as usize]));
        for _ in 0..2 {
            let answer = gulambitok_reset(&mut book, BOOK, 0, 0, &mut stamp, STAMP, None, 0);
            print_line(answer, &stamp_fields(&stamp));
        }
    }
}
