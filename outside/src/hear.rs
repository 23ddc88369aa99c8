//! All that a recording holds, in one text: its head, every frame with its reading, its values
//! under the running state and the state after, the voice blocks and the counts. The layout is set
//! out in CASES.md.

use crate::frame::Correction;
use crate::listing;
use crate::recording::{self, Counts, Heard};
use crate::text::{number, numbers};

/// Hears any bytes as a recording.
pub fn hear(recording: &[u8]) -> Vec<u8> {
    let sound = match recording::read(recording) {
        Ok(sound) => sound,
        Err(refusal) => return listing::refused(refusal),
    };
    let mut out = Vec::with_capacity(512 * (1 + sound.frames as usize));
    listing::head(&mut out, &sound);
    let mut counts = Counts::default();
    for heard in sound.heard() {
        counts.count(&heard.reading);
        frame(&mut out, counts.frames, &heard);
    }
    let mut blocks = 0;
    for (at, payload) in sound.voice_blocks() {
        block(&mut out, blocks, at, payload.len());
        blocks += 1;
    }
    block(&mut out, blocks, 0, 0);
    listing::last(&mut out, &counts);
    out
}

fn frame(out: &mut Vec<u8>, k: u32, heard: &Heard) {
    out.extend_from_slice(b"frame ");
    number(out, k.into());
    numbers(out, heard.reading.record.fields.map(i64::from));
    out.extend_from_slice(b" number");
    let correction = heard.reading.correction;
    listing::correction(out, correction);
    if let Correction::Data { field, bit } = correction {
        numbers(out, [field.into(), bit.into()]);
    }
    out.extend_from_slice(b" mark");
    numbers(out, [heard.reading.mark.into()]);
    match &heard.values {
        Err(refusal) => {
            out.extend_from_slice(b" refused");
            numbers(out, [refusal.number.into()]);
        }
        Ok(values) => {
            out.extend_from_slice(b" gains");
            for n in 0..4 {
                numbers(out, [values.cg[n].into(), values.pg[n].into()]);
            }
            out.extend_from_slice(b" delays");
            numbers(out, values.delays.map(i64::from));
            out.extend_from_slice(b" averages");
            numbers(
                out,
                values
                    .averages
                    .as_flattened()
                    .iter()
                    .map(|&average| average.into()),
            );
            out.extend_from_slice(b" state");
            numbers(out, heard.state.hz.map(i64::from));
        }
    }
    out.extend_from_slice(b" sy");
    numbers(out, heard.state.last_sy.map(i64::from));
    out.push(b'\n');
}

fn block(out: &mut Vec<u8>, k: usize, at: usize, length: usize) {
    out.extend_from_slice(b"block");
    numbers(out, [k, at, length].map(|n| n as i64));
    out.push(b'\n');
}

#[cfg(test)]
mod tests {
    use super::*;
    use crate::cases;
    use crate::frame;

    #[test]
    fn the_layout_is_that_of_the_cases() {
        let mut refused = frame::Record::ZERO;
        refused.fields[26] = 1;
        let mut second = frame::Record::ZERO;
        second.fields[0] = 1;
        second.fields[27] = 1;
        let mut frames = [frame::lay(&refused); 4];
        (frames[1], frames[2]) = ([0; 18], frame::lay(&second));
        // HP-0, PD(3)-5, and SP and SY.
        for (k, place) in [(1, 21), (2, 143), (3, 104), (3, 144)] {
            frame::flip(&mut frames[k], place);
        }
        let recording = cases::sound(1, 1, &[&frames[..1], &frames[1..]]);
        let zeros = |n| " 0".repeat(n);
        let rest = [210, 420, 620, 1000, 1470, 1800, 2225, 2760, 3190];
        let hz = rest.map(|hz| format!(" {hz}")).concat();
        let eighths = rest.map(|hz| format!(" {}", 8 * hz)).concat();
        let values =
            " gains -1330 -993 -1330 -993 -1330 -993 -1330 -993 delays 656 532 656 532 averages";
        let expected = [
            "unit 1 recording 1 frames 4\n".to_string(),
            format!("frame 1{} 1 0", zeros(26)),
            " number 0 c mark 0 refused 6 sy 0\n".to_string(),
            format!("frame 2{} number 1 p mark 0{values}", zeros(28)),
            format!(" 800{eighths}").repeat(4),
            format!(" state 100{hz} sy 0\n"),
            format!("frame 3 1{} 1", zeros(26)),
            format!(" number 10 d 19 5 mark 0{values}"),
            [870, 1010, 1150, 1290]
                .map(|average| format!(" {average}{eighths}"))
                .concat(),
            format!(" state 170{hz} sy 1\n"),
            format!("frame 4{} 1 1", zeros(26)),
            " number 15 d 27 0 mark 0 refused 6 sy 1\n".to_string(),
            "block 0 20 18\nblock 1 44 54\nblock 2 0 0\n".to_string(),
            "repaired 2 breaks 2\n".to_string(),
        ];
        assert_eq!(
            String::from_utf8(hear(&recording)).unwrap(),
            expected.concat()
        );
    }

    #[test]
    fn a_refused_recording_is_its_refusal_line() {
        assert_eq!(hear(&[]), b"refused 8 at 0\n");
        assert_eq!(hear(&[1]), b"refused 9 at 0\n");
        assert_eq!(hear(&[1, 0, 0, 0, 9, 0]), b"refused 10 at 0\n");
        assert_eq!(hear(&[1, 0, 0, 0, 2, 0, 5]), b"refused 11 at 0 1\n");
        assert_eq!(hear(&[0; 65_537]), b"refused 1 at 65536\n");
    }
}
