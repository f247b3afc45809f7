//! Setups, causes and what a leaf picks, in words.

use reference::{control, Grant, Overlay, Pick, Picks};
use sonsiplex::{Access, Cause};

/// What the control word of a setup says.
#[derive(Clone, Copy)]
pub(super) struct Control(pub(super) u32);

impl Control {
    pub(super) fn has(self, bit: u32) -> bool {
        self.0 & bit != 0
    }

    /// The accesses that are judged.
    pub(super) fn accesses(self) -> &'static [Access] {
        static ALL: [Access; 6] = Access::ALL;
        if self.has(control::TWO_LEVELS) {
            &ALL
        } else {
            &ALL[..3]
        }
    }

    pub(super) fn levels(self) -> &'static str {
        if self.has(control::TWO_LEVELS) {
            "two: six accesses are judged"
        } else {
            "one: the three privileged accesses are judged; forbidden bits of the others play no part"
        }
    }

    pub(super) fn stage1(self) -> String {
        if !self.has(control::STAGE1) {
            return "off: takes nothing away; overlays, WXN and PAN do nothing".into();
        }
        if self.has(control::INDIRECT) {
            return "on, Indirect: base codes decide, and table limits play no part".into();
        }
        let with = self.chosen(&[(control::WXN, "WXN"), (control::PAN, "PAN")]);
        let with = match with[..] {
            [] => String::new(),
            ref names => format!(" with {}", names.join(" and ")),
        };
        let two_levels = self.has(control::TWO_LEVELS);
        let what = match (two_levels, self.has(control::LIMITS_DISABLED)) {
            (true, false) => "AP, PXN, UXN and table limits decide",
            (true, true) => "AP, PXN and UXN decide, and table limits are disabled",
            (false, false) => "AP, XN and table limits decide",
            (false, true) => "AP and XN decide, and table limits are disabled",
        };
        format!("on, Direct{with}: {what}")
    }

    pub(super) fn stage2(self) -> &'static str {
        if self.has(control::STAGE2) {
            "on: S2AP and XN decide"
        } else {
            "off: takes nothing away"
        }
    }

    fn chosen(self, names: &[(u32, &'static str)]) -> Vec<&'static str> {
        let on = names.iter().filter(|(bit, _)| self.has(*bit));
        on.map(|(_, name)| *name).collect()
    }

    /// A cause in the words that fit the setup and the access.
    pub(super) fn cause(self, cause: Cause, access: Access) -> String {
        let one_level = !self.has(control::TWO_LEVELS);
        let privileged = access == Access::PrivilegedExecute;
        let words = match cause {
            Cause::ApOrBaseCode if self.has(control::INDIRECT) => "base code",
            Cause::ApOrBaseCode => "AP",
            Cause::PxnOrUxn if one_level => "XN",
            Cause::PxnOrUxn if privileged => "PXN",
            Cause::PxnOrUxn => "UXN",
            Cause::PxnTableOrUxnTable if one_level => "XNTable",
            Cause::PxnTableOrUxnTable if privileged => "PXNTable",
            Cause::PxnTableOrUxnTable => "UXNTable",
            other => return other.to_string(),
        };
        words.into()
    }

    /// A cause in the setup's words for all accesses, and where it is found.
    pub(super) fn cause_place(self, cause: Cause) -> (String, &'static str) {
        let one_level = !self.has(control::TWO_LEVELS);
        let words = match cause {
            Cause::PxnOrUxn if !one_level => "PXN, UXN".into(),
            Cause::PxnTableOrUxnTable if !one_level => "PXNTable, UXNTable".into(),
            _ => self.cause(cause, Access::PrivilegedRead),
        };
        let place = match cause {
            Cause::ApOrBaseCode if self.has(control::INDIRECT) => {
                "PIR at PIIndex: stage 1 descriptor bits 54, 53, 51, 6"
            }
            Cause::ApOrBaseCode if one_level => "stage 1 descriptor bit 7",
            Cause::ApOrBaseCode => "stage 1 descriptor bits 7:6",
            Cause::ApTable if one_level => "limits bit 1",
            Cause::ApTable => "limits bits 1:0",
            Cause::PxnOrUxn if one_level => "stage 1 descriptor bit 54",
            Cause::PxnOrUxn => "stage 1 descriptor bits 53 and 54",
            Cause::PxnTableOrUxnTable if one_level => "limits bit 3",
            Cause::PxnTableOrUxnTable => "limits bits 2 and 3",
            Cause::UnprivilegedWrite if self.has(control::LIMITS_DISABLED) => {
                "left by stage 1 descriptor bits 7:6"
            }
            Cause::UnprivilegedWrite => "left by stage 1 descriptor bits 7:6 and limits bits 1:0",
            Cause::Wxn => "control bit 6, where the level's write is left",
            Cause::Pan => "control bit 7, where unprivileged read or write is left",
            Cause::Overlay => "POR at POIndex: stage 1 descriptor bits 62:60",
            Cause::S2ap => "stage 2 descriptor bits 7:6",
            Cause::Stage2Xn => "stage 2 descriptor bits 54:53",
            Cause::Stage1Translation => "stage 1 descriptor bit 0 (valid) is clear",
            Cause::Stage1AccessFlag => "stage 1 descriptor bit 10 (AF) is clear",
            Cause::Stage2Translation => "stage 2 descriptor bit 0 (valid) is clear",
            Cause::Stage2AccessFlag => "stage 2 descriptor bit 10 (AF) is clear",
            _ => "",
        };
        (words, place)
    }
}

/// What a leaf picks, a line for each index and in it a column for each level.
pub(super) fn picks(picks: Picks) -> Vec<String> {
    let line = |name: &str, index: u8, [privileged, unprivileged]: [String; 2]| {
        let head = format!("{name} {index}:");
        format!("   {head:<12}{privileged:<35}{unprivileged}")
    };
    let codes = picks.codes.map(|(index, codes)| {
        let words = codes.map(|code| code.map(|code| pick("code", code)));
        line("PIIndex", index, by_level(words))
    });
    let overlays = picks.overlays.map(|(index, overlays)| {
        let words = overlays.map(|overlay| overlay.map(overlay_words));
        line("POIndex", index, by_level(words))
    });
    codes.into_iter().chain(overlays).collect()
}

/// Words with their level's name before them; of a level without any, nothing.
fn by_level([privileged, unprivileged]: [Option<String>; 2]) -> [String; 2] {
    let named = |name: &str, words: Option<String>| {
        let named = words.map(|words| format!("{name} {words}"));
        named.unwrap_or_default()
    };
    [
        named("privileged", privileged),
        named("unprivileged", unprivileged),
    ]
}

fn overlay_words(overlay: Overlay) -> String {
    match overlay {
        Overlay::Slot(slot) => pick("slot", slot),
        Overlay::NotApplied => "overlay does not apply".into(),
    }
}

/// A base code or a slot with what it grants.
fn pick(noun: &str, Pick { number, grant }: Pick) -> String {
    let granted: String = match grant {
        Grant::Rights(0) => "none".into(),
        Grant::Rights(rights) => {
            let letters = "RWX".chars().enumerate();
            let granted = letters.filter(|(place, _)| rights >> place & 1 == 1);
            granted.map(|(_, letter)| letter).collect()
        }
        Grant::Reserved => "reserved".into(),
        Grant::NotJudged => "not judged yet".into(),
    };
    format!("{noun} {number} {granted}")
}

/// A number of accesses.
pub(super) fn accesses(number: usize) -> String {
    match number {
        1 => "1 access".into(),
        _ => format!("{number} accesses"),
    }
}

/// A number of leaves.
pub(super) fn leaves(number: usize) -> String {
    match number {
        1 => "1 leaf".into(),
        _ => format!("{number} leaves"),
    }
}
