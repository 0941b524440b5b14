// What is measured: rounds of calls on one sheet, at the first seat of a hall.
pub trait Subject {
    // Loads the sheet; how many words it has.
    fn load(&mut self, rounds: u32) -> u64;

    // Says the words, and then the last of them again and again in its place; how many stand.
    fn say(&mut self, words: &[u8], rounds: u32) -> u64;

    // Hears the message; how many words stand.
    fn hear(&mut self, message: &str, rounds: u32) -> u64;

    // Hears the message and reads it on points; the form's length and the price, packed.
    fn points(&mut self, message: &str, rounds: u32) -> u64;

    // The same on worst.
    fn worst(&mut self, message: &str, rounds: u32) -> u64;

    fn hall(&self) -> &[u64];

    // What the last reading on points wrote, at the start of what is given.
    fn form(&self) -> &[u8];
}

pub fn packed(length: usize, price: u32) -> u64 {
    (length as u64) << 32 | u64::from(price)
}

pub fn length(packed: u64) -> usize {
    (packed >> 32) as usize
}

pub fn price(packed: u64) -> u32 {
    packed as u32
}
