//! One task through the library, in Rust: load a sheet, hear "hold the lathe", and read it.
//! lathe.c does the same in C, and run-linked runs both.

mod beachwhisk;

use beachwhisk::{HALL, LIST, NUMBERS, PRICES, Reading, Refused, Sheet};

const SHEET: Sheet = Sheet(
    b"rule\t0\tGo\thold\tOpt\tTool\n\
      rule\t0\tOpt\n\
      rule\t1\tOpt\tthe\n\
      rule\t2\tOpt\tOpt\n\
      rule\t0\tTool\tlathe\n\
      rule\t3\tTool\tOpt\tlathe\n",
);

// The word numbers of the sheet, by first appearance.
const HOLD: u8 = 0;
const THE: u8 = 1;
const LATHE: u8 = 2;

fn tell(call: &str, answer: Result<u64, Refused>) {
    match answer {
        Ok(value) => println!("{call}: {value}"),
        Err(refused) => println!("{call}: {refused}"),
    }
}

fn tell_reading(scale: &str, answer: Result<Reading, Refused>, list: &[u8]) {
    match answer {
        Ok(Reading { length, price }) => {
            let form: Vec<String> = list[..length].iter().map(u8::to_string).collect();
            println!("read on {scale}: price {price}, form {}", form.join(" "));
        }
        Err(refused) => println!("read on {scale}: {refused}"),
    }
}

// The memory of a server, and its calls at seat 0.
struct Server {
    hall: Vec<u64>,
    points: Vec<u32>,
    worst: Vec<u16>,
    numbers: Vec<u32>,
}

impl Server {
    fn new() -> Server {
        Server { hall: vec![0; HALL], points: vec![0; PRICES], worst: vec![0; PRICES], numbers: vec![0; NUMBERS] }
    }

    fn hear(&mut self, message: &str) {
        print!("{message}, ");
        tell("heard", SHEET.hear(&mut self.hall, 0, message.as_bytes()));
    }

    fn say(&mut self, word: u8) {
        tell("said", SHEET.say(&mut self.hall, 0, word));
    }

    fn back(&mut self) {
        tell("back", SHEET.back(&mut self.hall, 0));
    }

    fn look(&self) {
        tell("held", SHEET.held(&self.hall, 0));
        tell("offer", SHEET.offer(&self.hall, 0));
    }

    fn read_both(&mut self, list: &mut [u8]) {
        let points = SHEET.read_points(&self.hall, 0, list, &mut self.points, &mut self.numbers);
        tell_reading("points", points, list);
        let worst = SHEET.read_worst(&self.hall, 0, list, &mut self.worst, &mut self.numbers);
        tell_reading("worst", worst, list);
    }

    // What a careless server may pass.
    fn odd_arguments(&mut self) {
        tell("no sheet", Sheet(&[]).load());
        tell("no hall", SHEET.open(&mut []));
        tell("a short hall", SHEET.clear(&mut self.hall[1..], 0));
        tell("a fifth seat", SHEET.say(&mut self.hall, 4, HOLD));
        tell("a hall of any numbers", SHEET.say(&mut [u64::MAX; HALL], 0, HOLD));
        tell("no message", SHEET.hear(&mut self.hall, 0, &[]));
        tell_reading("nothing", SHEET.read_points(&self.hall, 0, &mut [], &mut [], &mut []), &[]);
    }
}

fn main() {
    let mut server = Server::new();
    let mut list = vec![0; LIST];
    tell("words", SHEET.load());
    tell("opened", SHEET.open(&mut server.hall));
    server.hear("hold the lathe");
    server.look();
    server.read_both(&mut list);
    server.hear("hold the drill!");
    server.hear("hold the the the");
    server.look();
    server.read_both(&mut list);
    server.back();
    server.say(THE);
    server.say(LATHE);
    server.read_both(&mut list);
    server.say(HOLD);
    server.read_both(&mut list[1..]);
    tell("cleared", SHEET.clear(&mut server.hall, 0));
    server.back();
    server.odd_arguments();
}
