//! Every call over as many slots as there can be, and with as many entries, in threads of 2 MB of stack.
use crate::calls::every_call;
use crate::files::{one_key, scattered_keys, Stated};
use vecq::MOST_SLOTS;

pub fn check() {
    let kinds: [fn(u32) -> Vec<(u32, u64)>; 3] = [|_| Vec::new(), one_key, scattered_keys];
    for (version, width) in [(262, 4), (260, 4), (261, 5), (264, 6)] {
        for keys in kinds {
            let mut stated = Stated::new(version, 32, width, MOST_SLOTS as u32);
            stated.keys = keys(stated.count);
            every_call(&format!("version {version}, width {width}, {} key entries", stated.keys.len()), &stated);
        }
        let mut wide = Stated::new(version, 4096, width, 40);
        wide.keys = scattered_keys(40);
        every_call(&format!("version {version}, width {width}, 4,096 entries"), &wide);
    }
}
