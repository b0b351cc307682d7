//! The colours of the page map, one table for the picture and the terminal.

#[derive(Clone, Copy, Debug, PartialEq, Eq)]
pub struct Colour {
    pub red: u8,
    pub green: u8,
    pub blue: u8,
}

/// A colour from its usual six digits.
const fn rgb(digits: u32) -> Colour {
    Colour {
        red: (digits >> 16) as u8,
        green: (digits >> 8) as u8,
        blue: digits as u8,
    }
}

pub const BLACK: Colour = rgb(0x000000);
pub const WHITE: Colour = rgb(0xffffff);

/// System pages are greys and a brown, which no user has.
pub const FREE: Colour = rgb(0xe9ecf0);
pub const MASTER: Colour = rgb(0x16191f);
pub const BIT_FILE: Colour = rgb(0x4d5563);
pub const USER_FILE: Colour = rgb(0x8791a3);
pub const OBJECT_FILE: Colour = rgb(0xab9068);

/// Doubtful pages of an unsound image: held twice, held and not reserved, reserved and not held.
pub const TWICE: Colour = rgb(0xff0000);
pub const CLEAR: Colour = rgb(0xff00ff);
pub const NOBODY: Colour = rgb(0xffff00);

/// The first users' colours: neighbours differ in hue and in lightness.
const USERS: [Colour; 12] = [
    rgb(0x2f7fd0),
    rgb(0xf5902a),
    rgb(0x3fa652),
    rgb(0xdb4a4f),
    rgb(0x8d63d2),
    rgb(0xf0cb3c),
    rgb(0x17b3b8),
    rgb(0xf282b9),
    rgb(0xa6cf3f),
    rgb(0x86c4f4),
    rgb(0xb83d94),
    rgb(0xffb68a),
];

/// Saturation and lightness of the users past the table: dark, pale, strong.
const LOOKS: [(f64, f64); 3] = [(0.75, 0.33), (0.75, 0.80), (0.80, 0.50)];

/// The colour of a user's files. It goes by his index, so that he keeps it as others come and go. Past the table the hue turns by the
/// golden angle, which leaves wide gaps between any number of users; it starts where the next twelve are farthest from the table's.
pub fn user(index: u32) -> Colour {
    let past = match USERS.get(index as usize) {
        Some(colour) => return *colour,
        None => index as usize - USERS.len(),
    };
    let (saturation, lightness) = LOOKS[past % LOOKS.len()];
    from_hue((300.0 + past as f64 * 137.508) % 360.0, saturation, lightness)
}

/// A colour from its hue in degrees, its saturation and its lightness.
fn from_hue(hue: f64, saturation: f64, lightness: f64) -> Colour {
    let reach = saturation * f64::min(lightness, 1.0 - lightness);
    let part = |turn: f64| {
        let k = (turn + hue / 30.0) % 12.0;
        let level = lightness - reach * f64::min(k - 3.0, 9.0 - k).clamp(-1.0, 1.0);
        (level * 255.0).round() as u8
    };
    Colour {
        red: part(0.0),
        green: part(8.0),
        blue: part(4.0),
    }
}

impl Colour {
    /// As SVG has it: "#2f7fd0".
    pub fn hex(self) -> String {
        format!("#{:02x}{:02x}{:02x}", self.red, self.green, self.blue)
    }

    /// The shade of index and subindex blocks.
    pub fn darker(self) -> Colour {
        let part = |level: u8| (u32::from(level) * 58 / 100) as u8;
        Colour {
            red: part(self.red),
            green: part(self.green),
            blue: part(self.blue),
        }
    }

    /// The colour on its way to another, by the share of so many of all; of itself a third is left.
    pub fn paler(self, other: Colour, share: u32, all: u32) -> Colour {
        let all = all.max(1);
        let part = |own: u8, other: u8| ((u32::from(own) * (3 * all - 2 * share) + u32::from(other) * 2 * share) / (3 * all)) as u8;
        Colour {
            red: part(self.red, other.red),
            green: part(self.green, other.green),
            blue: part(self.blue, other.blue),
        }
    }

    /// Black or white, whichever is better read on this colour.
    pub fn ink(self) -> Colour {
        let lightness = 299 * u32::from(self.red) + 587 * u32::from(self.green) + 114 * u32::from(self.blue);
        if lightness > 140_000 {
            BLACK
        } else {
            WHITE
        }
    }

    /// The nearest of a terminal's colours 16 to 255: a cube of six levels and a ramp of greys.
    pub fn terminal(self) -> u8 {
        (16..=255)
            .min_by_key(|number| self.distance(terminal_colour(*number)))
            .unwrap_or(16)
    }

    fn distance(self, other: Colour) -> u32 {
        let part = |one: u8, two: u8| u32::from(one.abs_diff(two)).pow(2);
        2 * part(self.red, other.red) + 4 * part(self.green, other.green) + 3 * part(self.blue, other.blue)
    }
}

/// What a terminal shows for a number from 16 on.
fn terminal_colour(number: u8) -> Colour {
    const LEVELS: [u8; 6] = [0, 95, 135, 175, 215, 255];
    if number >= 232 {
        let grey = 8 + 10 * (number - 232);
        return Colour {
            red: grey,
            green: grey,
            blue: grey,
        };
    }
    let cube = usize::from(number.saturating_sub(16));
    Colour {
        red: LEVELS[cube / 36],
        green: LEVELS[cube / 6 % 6],
        blue: LEVELS[cube % 6],
    }
}

#[cfg(test)]
mod tests {
    use super::*;
    use std::collections::HashSet;

    #[test]
    fn terminal_colours_are_those_of_xterm() {
        assert_eq!((terminal_colour(16), terminal_colour(231)), (BLACK, WHITE));
        assert_eq!(terminal_colour(67), rgb(0x5f87af));
        assert_eq!(terminal_colour(255), rgb(0xeeeeee));
        (16..=231).for_each(|number| assert_eq!(terminal_colour(number).terminal(), number));
    }

    #[test]
    fn the_first_users_and_the_system_differ_on_a_terminal_too() {
        let system = [FREE, MASTER, BIT_FILE, USER_FILE, OBJECT_FILE, TWICE, CLEAR, NOBODY];
        let all: Vec<Colour> = system.into_iter().chain((0..12).map(user)).collect();
        let numbers: HashSet<u8> = all.iter().map(|colour| colour.terminal()).collect();
        assert_eq!(numbers.len(), all.len());
    }

    #[test]
    fn all_256_users_have_colours_of_their_own() {
        let colours: HashSet<String> = (0..256).map(|index| user(index).hex()).collect();
        assert_eq!(colours.len(), 256);
    }

    #[test]
    fn a_paler_colour_is_between_the_two() {
        let (dark, light) = (rgb(0x300060), rgb(0xf0f0f0));
        assert_eq!((dark.paler(light, 0, 16), dark.paler(light, 16, 16)), (dark, rgb(0xb0a0c0)));
        assert_eq!((dark.paler(light, 3, 6), light.paler(light, 5, 16)), (rgb(0x705090), light));
        assert_eq!(dark.paler(light, 0, 0), dark);
    }

    #[test]
    fn a_shade_differs_from_its_colour() {
        (0..256)
            .map(user)
            .for_each(|colour| assert!(colour.distance(colour.darker()) > 4000, "{}", colour.hex()));
    }
}
