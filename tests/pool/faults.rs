//! Pools that are nearly legal: edits of a legal pool, each with the code of D.9 that it alone must give by document
//! 01, and bytes by chance, of which only the model says what they give.

use super::generate::{label_allows, Base, Function, Pool, Random, State, FULL};

type Apply = fn(&mut Pool, &mut Random);

/// One edit of a legal pool. Code 00: the pool stays legal. No code: the model decides.
#[derive(Clone, Copy)]
pub struct Edit {
    pub code: Option<u8>,
    pub name: &'static str,
    pub apply: Apply,
}

/// Code, name and edit.
type Coded = (u8, &'static str, Apply);

/// Every edit there is.
pub fn edits() -> Vec<Edit> {
    let coded = [BASE, LABELS, FUNCTION, STYLES, STATE, ENDS, NUMBERS, FUNCTION_LISTS, STATE_LISTS].concat();
    let coded = coded.into_iter().map(|(code, name, apply)| Edit { code: Some(code), name, apply });
    let open = OPEN.iter().map(|&(name, apply)| Edit { code: None, name, apply });
    coded.chain(open).collect()
}

/// One of the edits that give this code.
pub fn edit_giving(code: u8, random: &mut Random) -> Edit {
    let mut all = edits();
    all.retain(|edit| edit.code == Some(code));
    random.pick(&all)
}

const BASE: &[Coded] = &[
    (0xFF, "base number 1", |pool, _| pool.base().number = 1),
    (0xFF, "base number 0100", |pool, _| pool.base().number = 0x0100),
    (0xFF, "base number FFFF", |pool, _| pool.base().number = 0xFFFF),
    (0x01, "base of type 3", |pool, _| pool.base().kind = 3),
    (0x01, "base of a type above 2", |pool, random| pool.base().kind = random.between(3, 255) as u8),
    (0xFF, "version 3", |pool, _| pool.base().version = 3),
    (0xFF, "version above 2", |pool, random| pool.base().version = random.between(3, 255) as u8),
    (0x0C, "version 0", |pool, _| pool.base().version = 0),
    (0x0C, "version 1", |pool, _| pool.base().version = 1),
    (0xFF, "base name FFFF", |pool, _| pool.base().name = 0xFFFF),
    (0x00, "base name FFFE", |pool, _| pool.base().name = 0xFFFE),
    (0x00, "base name 0", |pool, _| pool.base().name = 0),
    (0xFF, "base picture FFFF", |pool, _| pool.base().picture = 0xFFFF),
    (0x00, "base picture FFFE", |pool, _| pool.base().picture = 0xFFFE),
    (0x00, "base picture 0", |pool, _| pool.base().picture = 0),
    (0x00, "NAME and mask FF", |pool, _| (pool.base().master_name, pool.base().mask) = (u64::MAX, u64::MAX)),
    (0x00, "NAME and mask 00", |pool, _| (pool.base().master_name, pool.base().mask) = (0, 0)),
    (0xFF, "O = 0, with a list", |pool, _| pool.base().o = Some(0)),
    (0xFF, "O = 0, no list", |pool, _| pool.base().functions.clear()),
];

const LABELS: &[Coded] = &[
    (0x09, "N = 0, with a label", |pool, _| pool.base().n = Some(0)),
    (0x09, "N = 0, no label", |pool, _| pool.base().version_label.clear()),
    (0x09, "N = 64", |pool, _| pool.base().version_label.resize(64, b' ')),
    (0x09, "N above 63, label shorter", |pool, random| pool.base().n = Some(random.between(64, 255) as u8)),
    (0x09, "second base with N = 0", |pool, random| second_base(pool, random).version_label.clear()),
    (0x09, "second base with N = 64", |pool, random| second_base(pool, random).version_label.resize(64, b' ')),
    (0x09, "base number 5 and N = 0", |pool, _| (pool.base().number, pool.base().n) = (5, Some(0))),
    (0x00, "N = 63", |pool, _| pool.base().version_label.resize(63, b' ')),
    (0x00, "N = 1", |pool, _| pool.base().version_label.truncate(1)),
    (0x0B, "M = 0, with a label", |pool, _| pool.base().m = Some(0)),
    (0x0B, "M = 0, no label", |pool, _| pool.base().configuration_label.clear()),
    (0x0B, "M = 64", |pool, _| pool.base().configuration_label.resize(64, b' ')),
    (0x0B, "M above 63, label shorter", |pool, random| pool.base().m = Some(random.between(64, 255) as u8)),
    (0x0B, "second base with M = 0", |pool, random| second_base(pool, random).configuration_label.clear()),
    (0x0B, "second base with M = 64", |pool, random| second_base(pool, random).configuration_label.resize(64, 0)),
    (0x0B, "base number 5 and M = 0", |pool, _| (pool.base().number, pool.base().m) = (5, Some(0))),
    (0x00, "M = 63", |pool, _| pool.base().configuration_label.resize(63, b' ')),
    (0x00, "M = 1", |pool, _| pool.base().configuration_label.truncate(1)),
    (0x0A, "version label with a character not allowed", |pool, random| {
        let place = random.below(64);
        set_character(pool, place, character_where(random, false));
    }),
    (0x0A, "version label that begins with a character not allowed", |pool, random| {
        set_character(pool, 0, character_where(random, false));
    }),
    (0x0A, "version label that ends with a character not allowed", |pool, random| {
        let character = character_where(random, false);
        pool.base().version_label.pop();
        pool.base().version_label.push(character);
    }),
    (0x00, "version label with any character allowed", |pool, random| {
        let place = random.below(64);
        set_character(pool, place, character_where(random, true));
    }),
    (0x00, "configuration label with a character not allowed in the other", |pool, random| {
        pool.base().configuration_label[0] = character_where(random, false);
    }),
];

const FUNCTION: &[Coded] = &[
    (0xFF, "function number 0", |pool, random| function(pool, random).number = 0),
    (0xFF, "function number FFFF", |pool, random| function(pool, random).number = 0xFFFF),
    (0x01, "function of type 3", |pool, random| function(pool, random).kind = 3),
    (0x01, "function of a type above 2", |pool, random| {
        let kind = random.between(3, 255) as u8;
        function(pool, random).kind = kind;
    }),
    (0x01, "function FFFF of type 9", |pool, random| {
        let function = function(pool, random);
        (function.number, function.kind) = (0xFFFF, 9);
    }),
    (0xFF, "preferred trigger 0", |pool, random| function(pool, random).preferred_trigger = 0),
    (0xFF, "preferred trigger 3", |pool, random| function(pool, random).preferred_trigger = 3),
    (0xFF, "preferred trigger 254", |pool, random| function(pool, random).preferred_trigger = 254),
    (0xFF, "preferred trigger 3 to 254", |pool, random| {
        let trigger = random.between(3, 254) as u8;
        function(pool, random).preferred_trigger = trigger;
    }),
    (0x00, "preferred trigger 1", |pool, random| function(pool, random).preferred_trigger = 1),
    (0x00, "preferred trigger 2", |pool, random| function(pool, random).preferred_trigger = 2),
    (0x00, "preferred trigger 255", |pool, random| function(pool, random).preferred_trigger = 255),
    (0xFF, "function name FFFF", |pool, random| function(pool, random).name = 0xFFFF),
    (0x00, "function name FFFE", |pool, random| function(pool, random).name = 0xFFFE),
    (0x00, "function name 0", |pool, random| function(pool, random).name = 0),
    (0xFF, "function picture FFFF", |pool, random| function(pool, random).picture = 0xFFFF),
    (0x00, "function picture FFFE", |pool, random| function(pool, random).picture = 0xFFFE),
    (0x00, "function picture 0", |pool, random| function(pool, random).picture = 0),
    (0xFF, "S = 65", |pool, random| function(pool, random).states.resize(65, 1)),
    (0xFF, "S = 65, list shorter", |pool, random| function(pool, random).s = Some(65)),
    (0xFF, "S above 64, list shorter", |pool, random| {
        let states = random.between(65, 255) as u8;
        function(pool, random).s = Some(states);
    }),
    (0xFF, "S = 255", |pool, random| function(pool, random).states.resize(255, 1)),
    (0x00, "unlisted function with S = 64", |pool, random| pool.add_unlisted_function(random, 64)),
];

const STYLES: &[Coded] = &[
    (0xFF, "attribute 3", |pool, random| function(pool, random).attribute = 3),
    (0xFF, "attribute above 2", |pool, random| {
        let attribute = random.between(3, 255) as u8;
        function(pool, random).attribute = attribute;
    }),
    (0xFF, "attribute with a reserved bit", |pool, random| {
        let style = random.below(3) as u8;
        let bit = 2 + random.below(6);
        styled(pool, random, style).attribute |= 1 << bit;
    }),
    (0xFF, "style 00, minimum", |pool, random| styled(pool, random, 0).minimum ^= bit(random, 32)),
    (0xFF, "style 00, maximum", |pool, random| styled(pool, random, 0).maximum ^= bit(random, 32)),
    (0xFF, "style 00, offset", |pool, random| styled(pool, random, 0).offset ^= bit(random, 32)),
    (0xFF, "style 00, scale", |pool, random| styled(pool, random, 0).scale ^= bit(random, 32)),
    (0xFF, "style 00, decimals", |pool, random| styled(pool, random, 0).decimals ^= bit(random, 8) as u8),
    (0xFF, "style 00, unit", |pool, random| styled(pool, random, 0).unit ^= bit(random, 16) as u16),
    (0x00, "style 00", |pool, random| styled(pool, random, 0).attribute = 0),
    (0xFF, "style 01, minimum", |pool, random| styled(pool, random, 1).minimum ^= bit(random, 32)),
    (0xFF, "style 01, maximum", |pool, random| styled(pool, random, 1).maximum ^= bit(random, 32)),
    (0x00, "style 01, offset all one bits", |pool, random| styled(pool, random, 1).offset = u32::MAX),
    (0xFF, "style 10, minimum one above maximum", |pool, random| {
        let function = styled(pool, random, 2);
        function.maximum = function.maximum.min(u32::MAX - 1);
        function.minimum = function.maximum + 1;
    }),
    (0xFF, "style 10, minimum above maximum in one bit", |pool, random| {
        let bit = bit(random, 32);
        let function = styled(pool, random, 2);
        function.minimum = function.maximum | bit;
        function.maximum = function.minimum ^ bit;
    }),
    (0xFF, "style 10, 80000000 to 7FFFFFFF", |pool, random| {
        let function = styled(pool, random, 2);
        (function.minimum, function.maximum) = (0x8000_0000, 0x7FFF_FFFF);
    }),
    (0x00, "style 10, 7FFFFFFF to 80000000", |pool, random| {
        let function = styled(pool, random, 2);
        (function.minimum, function.maximum) = (0x7FFF_FFFF, 0x8000_0000);
    }),
    (0x00, "style 10, minimum is maximum", |pool, random| {
        let function = styled(pool, random, 2);
        function.minimum = function.maximum;
    }),
    (0x00, "style 10, 0 to all one bits", |pool, random| {
        let function = styled(pool, random, 2);
        (function.minimum, function.maximum) = (0, u32::MAX);
    }),
    (0xFF, "scale not finite or not above zero", |pool, random| {
        let scale =
            random.pick(&[0, 0x8000_0000, 0x7F80_0000, 0x7F80_0001, 0x7FC0_0000, 0x8000_0001, 0xBF80_0000, u32::MAX]);
        shown(pool, random).scale = scale;
    }),
    (0xFF, "scale above the finite ones", |pool, random| {
        let scale = random.between(0x7F80_0000, 0x7FFF_FFFF);
        shown(pool, random).scale = scale;
    }),
    (0xFF, "scale with the sign set", |pool, random| shown(pool, random).scale |= 0x8000_0000),
    (0x00, "scale finite and above zero", |pool, random| {
        let scale = random.pick(&[1, 0x007F_FFFF, 0x0080_0000, 0x3F80_0000, 0x7F7F_FFFF]);
        shown(pool, random).scale = scale;
    }),
    (0xFF, "decimals 8", |pool, random| shown(pool, random).decimals = 8),
    (0xFF, "decimals above 7", |pool, random| {
        let decimals = random.between(8, 255) as u8;
        shown(pool, random).decimals = decimals;
    }),
    (0x00, "decimals 7", |pool, random| shown(pool, random).decimals = 7),
    (0x00, "decimals 0", |pool, random| shown(pool, random).decimals = 0),
    (0xFF, "unit FFFF", |pool, random| shown(pool, random).unit = 0xFFFF),
    (0x00, "unit FFFE", |pool, random| shown(pool, random).unit = 0xFFFE),
    (0x00, "unit 0", |pool, random| shown(pool, random).unit = 0),
];

const STATE: &[Coded] = &[
    (0xFF, "state number 0", |pool, random| state(pool, random).number = 0),
    (0xFF, "state number FFFF", |pool, random| state(pool, random).number = 0xFFFF),
    (0x01, "state of type 3", |pool, random| state(pool, random).kind = 3),
    (0x01, "state of a type above 2", |pool, random| {
        let kind = random.between(3, 255) as u8;
        state(pool, random).kind = kind;
    }),
    (0xFF, "state ID 64", |pool, random| state(pool, random).state_id = 64),
    (0xFF, "state ID above 63", |pool, random| {
        let id = random.between(64, 255) as u8;
        state(pool, random).state_id = id;
    }),
    (0x00, "unlisted state with state ID 63", |pool, random| {
        pool.add_state(random, 63);
    }),
    (0xFF, "state name FFFF", |pool, random| state(pool, random).name = 0xFFFF),
    (0x00, "state name FFFE", |pool, random| state(pool, random).name = 0xFFFE),
    (0x00, "state name 0", |pool, random| state(pool, random).name = 0),
    (0xFF, "state picture FFFF", |pool, random| state(pool, random).picture = 0xFFFF),
    (0x00, "state picture FFFE", |pool, random| state(pool, random).picture = 0xFFFE),
    (0x00, "state picture 0", |pool, random| state(pool, random).picture = 0),
];

const ENDS: &[Coded] = &[
    (0xFF, "last object cut", |pool, random| pool.cut = Some(random.below(10_000))),
    (0xFF, "last object without its last byte", |pool, _| pool.cut = Some(0)),
    (0xFF, "one byte more", |pool, random| pool.tail = vec![random.number() as u8]),
    (0xFF, "two bytes more", |pool, random| pool.tail = random.number().to_le_bytes()[..2].to_vec()),
    (0xFF, "three bytes of a state more", |pool, _| pool.tail = vec![1, 0, 2]),
    (0x01, "three bytes of type 3 more", |pool, _| pool.tail = vec![1, 0, 3]),
    (0x02, "no base", |pool, _| pool.baseless = true),
];

const NUMBERS: &[Coded] = &[
    (0x05, "second base", |pool, random| {
        second_base(pool, random);
    }),
    (0x05, "base twice", |pool, _| pool.bases.push(pool.bases[0].clone())),
    (0x05, "state twice", |pool, random| {
        let state = state(pool, random).clone();
        pool.states.push(state);
    }),
    (0x05, "function twice", |pool, random| {
        let function = function(pool, random).clone();
        pool.functions.push(function);
    }),
    (0x05, "state with a function's number", |pool, random| {
        let number = function(pool, random).number;
        pool.states.push(State::legal(random, number, 0));
    }),
    (0x05, "function with a state's number", |pool, random| {
        let number = state(pool, random).number;
        pool.functions.push(Function::legal(random, number, 0, Vec::new()));
    }),
    (0x05, "two functions with one number", |pool, random| {
        let number = function(pool, random).number;
        pool.functions.push(Function::legal(random, number, 0, vec![number]));
    }),
    (0x05, "two states with one number", |pool, random| {
        let number = state(pool, random).number;
        pool.states.push(State::legal(random, number, 63));
    }),
];

const FUNCTION_LISTS: &[Coded] = &[
    (0x03, "listed function 0", |pool, random| *function_entry(pool, random) = 0),
    (0x03, "listed function FFFF", |pool, random| *function_entry(pool, random) = 0xFFFF),
    (0x03, "listed function absent", |pool, random| *function_entry(pool, random) = pool.fresh(random)),
    (0x03, "listed function is a state", |pool, random| {
        let number = state(pool, random).number;
        *function_entry(pool, random) = number;
    }),
    (0x03, "listed function without its object", |pool, random| {
        let listed = listed_function(pool, random);
        pool.functions.remove(listed);
    }),
    (0x03, "listed function with another number", |pool, random| {
        let listed = listed_function(pool, random);
        pool.functions[listed].number = pool.fresh(random);
    }),
    (0x03, "state in place of a listed function", |pool, random| {
        let listed = listed_function(pool, random);
        let number = pool.functions.remove(listed).number;
        pool.states.push(State::legal(random, number, 0));
    }),
    (0x06, "function listed twice", |pool, random| {
        let number = *function_entry(pool, random);
        list_again(&mut pool.base().functions, 255, number, random);
    }),
    (0x06, "two listed functions with one function ID", |pool, random| {
        let listed = listed_function(pool, random);
        let id = pool.functions[listed].function_id;
        let number = pool.functions[listed].number;
        let other = pool.add_function(random, id, Vec::new());
        list_beside(&mut pool.base().functions, 255, number, other, random);
    }),
    (0x00, "unlisted function with a listed one's function ID", |pool, random| {
        let listed = listed_function(pool, random);
        let id = pool.functions[listed].function_id;
        pool.add_function(random, id, Vec::new());
    }),
];

const STATE_LISTS: &[Coded] = &[
    (0x04, "listed state 0", |pool, random| *state_entry(pool, random) = 0),
    (0x04, "listed state FFFF", |pool, random| *state_entry(pool, random) = 0xFFFF),
    (0x04, "listed state absent", |pool, random| *state_entry(pool, random) = pool.fresh(random)),
    (0x04, "listed state is a function", |pool, random| {
        let number = function(pool, random).number;
        *state_entry(pool, random) = number;
    }),
    (0x04, "listed state without its object", |pool, random| {
        let number = *state_entry(pool, random);
        pool.states.retain(|state| state.number != number);
    }),
    (0x04, "listed state with another number", |pool, random| {
        let number = *state_entry(pool, random);
        let other = pool.fresh(random);
        pool.states.iter_mut().filter(|state| state.number == number).for_each(|state| state.number = other);
    }),
    (0x04, "function in place of a listed state", |pool, random| {
        let number = *state_entry(pool, random);
        pool.states.retain(|state| state.number != number);
        pool.functions.push(Function::legal(random, number, 0, Vec::new()));
    }),
    (0x07, "state listed twice", |pool, random| {
        let function = function_with_state(pool, random);
        let number = random.pick(&pool.functions[function].states);
        list_again(&mut pool.functions[function].states, 64, number, random);
    }),
    (0x07, "two states of one function with one state ID", |pool, random| {
        let function = function_with_state(pool, random);
        let number = random.pick(&pool.functions[function].states);
        let id = state_id(pool, number);
        let other = pool.add_state(random, id);
        list_beside(&mut pool.functions[function].states, 64, number, other, random);
    }),
    (0x00, "two functions with one state", |pool, random| {
        let number = *state_entry(pool, random);
        list_new_function(pool, random, vec![number]);
    }),
    (0x00, "two states of two functions with one state ID", |pool, random| {
        let number = *state_entry(pool, random);
        let id = state_id(pool, number);
        let other = pool.add_state(random, id);
        list_new_function(pool, random, vec![other]);
    }),
    (0x00, "unlisted function with two states of one state ID, one twice", |pool, random| {
        let number = *state_entry(pool, random);
        let id = state_id(pool, number);
        let other = pool.add_state(random, id);
        pool.add_function(random, 0, vec![number, other, number]);
    }),
    (0x00, "unlisted function with absent states", |pool, random| {
        let absent = pool.fresh(random);
        pool.add_function(random, 0, vec![absent, 0, 0xFFFF]);
    }),
];

const OPEN: &[(&str, Apply)] = &[
    ("N one more", |pool, _| pool.base().n = Some(pool.base().version_label.len() as u8 + 1)),
    ("N one less", |pool, _| pool.base().n = Some(pool.base().version_label.len() as u8 - 1)),
    ("M one more", |pool, _| pool.base().m = Some(pool.base().configuration_label.len() as u8 + 1)),
    ("M one less", |pool, _| pool.base().m = Some(pool.base().configuration_label.len() as u8 - 1)),
    ("O by chance", |pool, random| pool.base().o = Some(random.between(0, 255) as u8)),
    ("O one less", |pool, _| pool.base().o = Some(pool.base().functions.len() as u8 - 1)),
    ("S by chance", |pool, random| {
        let states = random.between(0, 64) as u8;
        function(pool, random).s = Some(states);
    }),
    ("S one more", |pool, random| {
        let function = function(pool, random);
        function.s = Some(function.states.len() as u8 + 1);
    }),
    ("base of another type", |pool, random| pool.base().kind = random.pick(&[1, 2])),
    ("function of another type", |pool, random| {
        let kind = random.pick(&[0, 2]);
        function(pool, random).kind = kind;
    }),
    ("state of another type", |pool, random| {
        let kind = random.pick(&[0, 1]);
        state(pool, random).kind = kind;
    }),
    ("state ID by chance", |pool, random| {
        let id = random.between(0, 63) as u8;
        state(pool, random).state_id = id;
    }),
    ("function ID by chance", |pool, random| {
        let id = random.between(0, 255) as u8;
        function(pool, random).function_id = id;
    }),
    ("state number by chance", |pool, random| {
        let number = random.number() as u16;
        state(pool, random).number = number;
    }),
];

/// One more base, legal but for being one more.
fn second_base<'p>(pool: &'p mut Pool, random: &mut Random) -> &'p mut Base {
    let mut base = Base::legal(random);
    base.functions = pool.base().functions.clone();
    pool.bases.push(base);
    let last = pool.bases.len() - 1;
    &mut pool.bases[last]
}

/// Any function, listed or not.
fn function<'p>(pool: &'p mut Pool, random: &mut Random) -> &'p mut Function {
    if pool.functions.is_empty() || random.once_in(8) {
        pool.add_unlisted_function(random, 2);
    }
    let place = random.below(pool.functions.len());
    &mut pool.functions[place]
}

/// Any function, made one of this style.
fn styled<'p>(pool: &'p mut Pool, random: &mut Random, style: u8) -> &'p mut Function {
    let function = function(pool, random);
    function.set_style(random, style);
    function
}

/// Any function, made one of style 01 or 10.
fn shown<'p>(pool: &'p mut Pool, random: &mut Random) -> &'p mut Function {
    let style = random.pick(&[1, 2]);
    styled(pool, random, style)
}

/// Any state, listed or not.
fn state<'p>(pool: &'p mut Pool, random: &mut Random) -> &'p mut State {
    if pool.states.is_empty() || random.once_in(8) {
        pool.add_state(random, 0);
    }
    let place = random.below(pool.states.len());
    &mut pool.states[place]
}

fn bit(random: &mut Random, bits: usize) -> u32 {
    1 << random.below(bits)
}

/// A character that a version label may or may not hold.
fn character_where(random: &mut Random, allowed: bool) -> u8 {
    let characters: Vec<u8> = (0x00..=0xFF).filter(|&character| label_allows(character) == allowed).collect();
    random.pick(&characters)
}

/// Puts a character into the version label, at this place or the rest of it by the label's length.
fn set_character(pool: &mut Pool, place: usize, character: u8) {
    let label = &mut pool.base().version_label;
    if label.is_empty() {
        label.push(b' ');
    }
    let place = place % label.len();
    label[place] = character;
}

/// Any place in the base's list.
fn function_entry<'p>(pool: &'p mut Pool, random: &mut Random) -> &'p mut u16 {
    if pool.base().functions.is_empty() {
        pool.base().functions.push(1);
    }
    let place = random.below(pool.base().functions.len());
    &mut pool.base().functions[place]
}

/// Where among the functions any of the listed ones is; one more is listed where there is none.
fn listed_function(pool: &mut Pool, random: &mut Random) -> usize {
    let list = pool.base().functions.clone();
    let listed = |place: &usize| list.contains(&pool.functions[*place].number);
    let places: Vec<usize> = (0..pool.functions.len()).filter(listed).collect();
    if places.is_empty() {
        list_new_function(pool, random, Vec::new());
        return pool.functions.len() - 1;
    }
    random.pick(&places)
}

/// Lists one more function, with a function ID that no listed one has; with 255 listed, in place of the last.
fn list_new_function(pool: &mut Pool, random: &mut Random, states: Vec<u16>) {
    pool.base().functions.truncate(254);
    let list = pool.base().functions.clone();
    let listed = pool.functions.iter().filter(|function| list.contains(&function.number));
    let ids: Vec<u8> = listed.map(|function| function.function_id).collect();
    let id = (0..=255).find(|id| !ids.contains(id)).unwrap_or(0);
    let number = pool.add_function(random, id, states);
    pool.base().functions.push(number);
}

/// Where among the functions any of the listed ones is; it has a state.
fn function_with_state(pool: &mut Pool, random: &mut Random) -> usize {
    let place = listed_function(pool, random);
    if pool.functions[place].states.is_empty() {
        let number = pool.add_state(random, 5);
        pool.functions[place].states.push(number);
    }
    place
}

/// Any place in a listed function's list.
fn state_entry<'p>(pool: &'p mut Pool, random: &mut Random) -> &'p mut u16 {
    let function = function_with_state(pool, random);
    let place = random.below(pool.functions[function].states.len());
    &mut pool.functions[function].states[place]
}

fn state_id(pool: &Pool, number: u16) -> u8 {
    pool.states.iter().find(|state| state.number == number).map_or(0, |state| state.state_id)
}

/// Lists a listed number once more, at any place.
fn list_again(list: &mut Vec<u16>, most: usize, number: u16, random: &mut Random) {
    list_beside(list, most, number, number, random);
}

/// Lists another number beside a listed one, at any place; in place of one that is not it where the list is full.
fn list_beside(list: &mut Vec<u16>, most: usize, number: u16, other: u16, random: &mut Random) {
    if list.len() < most {
        let place = random.below(list.len() + 1);
        list.insert(place, other);
    } else if list[0] == number {
        list[1 + random.below(most - 1)] = other;
    } else {
        list[0] = other;
    }
}

/// Some bytes of a legal pool by chance: one or more altered, one left out, or one put in.
pub fn alter(bytes: &mut Vec<u8>, random: &mut Random) {
    let times = random.pick(&[1, 1, 1, 2, 3, 8]);
    for _ in 0..times {
        let place = random.below(bytes.len());
        match random.below(8) {
            0 => bytes.insert(place, random.number() as u8),
            1 if bytes.len() > 1 => drop(bytes.remove(place)),
            2 | 3 => bytes[place] ^= bit(random, 8) as u8,
            4 => bytes[place] = random.pick(&[0, 1, 2, 3, 63, 64, 65, 255]),
            _ => bytes[place] = random.number() as u8,
        }
    }
}

/// Bytes by chance; half of the time with the first object's type a legal one.
pub fn noise(random: &mut Random) -> Vec<u8> {
    let length = random.pick(&[1, 2, 3, 8, 27, 30, 100, 700]);
    let length = random.below(length + 1);
    let mut bytes: Vec<u8> = (0..length).map(|_| random.number() as u8).collect();
    if length > 2 && random.once_in(2) {
        bytes[2] = random.below(3) as u8;
    }
    bytes
}

/// More than 16,384 bytes: a pool that is legal but for its size, or one with something behind it.
pub fn too_long(random: &mut Random) -> Vec<u8> {
    let size = match random.below(4) {
        0 => FULL + 1,
        1 => FULL + 2 + random.below(300),
        2 => random.pick(&[0xFFFF, 0x1_0000, 0x1_0001, 0x1_0000 + 61, 0x1_0000 + FULL]),
        _ => FULL + 1 + random.below(54_000),
    };
    let mut pool = Pool::least(random);
    if random.once_in(2) {
        pool.pad(random, size, 0);
    }
    let mut bytes = pool.bytes();
    bytes.resize(size, random.number() as u8);
    bytes
}
