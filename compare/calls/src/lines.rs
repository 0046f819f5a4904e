//! The text form of calls: each line comes back as the call it was written from, and what is given likewise.

use cases::random::Random;
use cases::{Call, Found, Lookup, Told};
use telling::find::found;

use crate::forged::forged;
use crate::hold::Held;
use crate::lists::any_lookup;

pub fn come_back(held: &mut Held, count: usize, random: &mut Random) -> Result<(), String> {
    for _ in 0..count {
        lookup_comes_back(&any_lookup(random))?;
        let call = forged(random);
        let told = held.hold(&call)?;
        let (mut line, mut text) = (Vec::new(), Vec::new());
        call.write(&mut line);
        told.write(&mut text);
        let shown = format!("  {} => {}", String::from_utf8_lossy(&line), String::from_utf8_lossy(&text));
        if Call::read(&line)? != call {
            return Err(format!("{}\n  the call comes back as another", shown));
        }
        if Told::read(&call, &text)? != told || Told::of(&call, &told.given(&call)).as_ref() != Some(&told) {
            return Err(format!("{}\n  what is given comes back as another", shown));
        }
    }
    Ok(())
}

fn lookup_comes_back(lookup: &Lookup) -> Result<(), String> {
    let mut line = Vec::new();
    lookup.write(&mut line);
    let shown = String::from_utf8_lossy(&line).into_owned();
    if Lookup::read(&line)? != *lookup {
        return Err(format!("  {}\n  the look-up comes back as another", shown));
    }
    let found = found(lookup);
    if Found::of(lookup, &found.seen(lookup)) != Some(found) {
        return Err(format!("  {}\n  what is found comes back as another", shown));
    }
    Ok(())
}
