//! Document 01's worked cases, and what the program prints.

mod common;

use common::*;
use second::*;

#[test]
fn every_worked_case() {
    assert_eq!(worked(&Second), Vec::<String>::new());
}

#[test]
fn the_program_prints_it() {
    let image = [record(0xA4, 27), record(0xA6, 27)].concat();
    assert_eq!(mend(&image), "0 1 0 28\n1 3 255 6\nclean 0 data 1 check 0 even 1 odd 0 stray 0\n");
    assert_eq!(mend(&[]), "clean 0 data 0 check 0 even 0 odd 0 stray 0\n");
    assert_eq!(mend(&image[..19]), "refused 12\n");
    assert_eq!(mend(&vec![0; 65_540]), "refused 12\n");
    assert_eq!(mend(&vec![0; 65_530]), "clean 6553 data 0 check 0 even 0 odd 0 stray 0\n");
}

#[test]
fn the_program_reads_and_prints() {
    let mut output = Vec::new();
    run(&record(0xA5, 27)[..], &mut output).unwrap();
    assert_eq!(output, b"clean 1 data 0 check 0 even 0 odd 0 stray 0\n");
}

#[test]
fn the_program_prints_every_verdict() {
    let words = [(0xA5, 27), (0xA4, 27), (0xA5, 26), (0xA6, 27), (0xA6, 26), (0x100, 0)];
    let image: Vec<u8> = words.iter().flat_map(|&(data, check)| record(data, check)).collect();
    let text = "1 1 0 28\n2 2 8 1\n3 3 255 6\n4 4 255 7\n5 5 255 0\nclean 1 data 1 check 1 even 1 odd 1 stray 1\n";
    assert_eq!(mend(&image), text);
}
