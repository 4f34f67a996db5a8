use corrivume::{Collection, Dictionary};

fn main() -> Result<(), corrivume::Error> {
    let sheet = b"K\t3\nS\tAAACC\t2\t2\t5\nS\tAGAT\t7\t2\nS\tCAGCC\t7\t7\t3\nS\tTACA\t3\t5\n";
    let given = Collection::read(sheet)?;
    let least = given.apply(&given.cover()?.places)?;
    println!("{} runs as given, {} at the fewest", given.runs()?.len(), least.runs()?.len());
    let dictionary = Dictionary::new(least, 2)?;
    for word in ["CAG", "CCC"] {
        match dictionary.weight(word.as_bytes())? {
            Some(weight) => println!("{word} weighs {weight}"),
            None => println!("{word} is absent"),
        }
    }
    Ok(())
}
