//! Machines and instructions as bytes.

use super::*;
use crate::boundary;

#[test]
fn packing_round_trips() {
    let mut state: Vec<u8> = (0..280).map(|index| (index * 7) as u8).collect();
    state[258] = 200;
    state[259] = 4;
    state[260] = 1;
    state[261..267].copy_from_slice(&[1, 0, 0, 1, 1, 1]);
    state[267] = 0;
    let machine = boundary::unpack(&state).unwrap();
    let mut again = vec![0xAA; 280];
    boundary::pack(&machine, &mut again);
    assert_eq!(state, again);
    for (index, byte) in [(259, 5), (260, 2), (261, 2), (266, 255), (267, 1)] {
        let mut bad = state.clone();
        bad[index] = byte;
        assert_eq!(boundary::reset(&mut bad), 2);
    }
    assert_eq!(boundary::reset(&mut state[..279]), 2);
    assert_eq!(boundary::reset(&mut state), 0);
    assert_eq!(state[256..260], [0xFE, 0x0F, 0, 0]);
}

#[test]
fn packed_fields_round_trip() {
    for opcode in 0..=255u8 {
        let rom = image(0x100, &[opcode, 0x12, 0x34]);
        let mut fields = [0xEE; 11];
        let answer = boundary::decode(&rom, 0x100, 0, &mut fields);
        let length = SIZES[opcode as usize].length;
        if length == 0 {
            assert_eq!(answer, 5 | 0x100 << 8);
            assert_eq!(fields, [0xEE; 11]);
            continue;
        }
        assert_eq!(answer, (length as u64) << 24);
        assert_eq!((fields[7], fields[9], fields[10]), (length, 0, 0xEE));
        let mut out = [0; 3];
        assert_eq!(boundary::write(&fields[..7], &mut out), answer);
        assert_eq!(out[..length as usize], rom[0x100..0x100 + length as usize]);
    }
}
