//! Cases that are worked by hand: what is told of each must be what its line says.

use cases::Call;
use telling::Teller;

/// A title, a call, and what it gives.
pub type Case = (&'static str, &'static str, &'static str);

/// Each call with its title.
pub fn lines(cases: &[Case], teller: &mut Teller) -> Vec<(Option<&'static str>, Call)> {
    let mut lines = Vec::new();
    for &(title, line, given) in cases {
        let call = Call::read(line.as_bytes()).expect(line);
        let mut told = Vec::new();
        teller.told(&call).write(&mut told);
        assert_eq!(String::from_utf8_lossy(&told), given, "{}", line);
        lines.push((Some(title), call));
    }
    lines
}
