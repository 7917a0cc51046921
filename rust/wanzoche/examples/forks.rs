//! Two who take two forks crosswise: every order of their steps is looked at, before anything runs.

use wanzoche::{explore, Error};

const FORKS: &str = "
    resource a cell operation left path left end end
    resource b cell operation right path right end end
";
const CROSSWISE: &str = "\
process kant
enter left
enter right
leave
leave
end
process hume
enter right
enter left
leave
leave
end
";

fn main() -> Result<(), Error> {
    let found = explore(FORKS, CROSSWISE, 1_000_000)?;
    if !found.is_done() {
        print!("{found}");
    }
    Ok(())
}
