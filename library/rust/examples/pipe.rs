//! A parent and its child talk through a pipe, as in example.c.

use bindingclay::{Answer, Clay, MOST_FILE_BYTES, NotDone};

fn main() -> Result<(), NotDone> {
    let mut clay = Clay::open(1, MOST_FILE_BYTES).ok_or(NotDone::NoMemory)?;
    let parent = clay.start()?;
    let ends = clay.pipe(parent, false)?;
    let child = clay.fork(parent)?;
    clay.close(child, ends.write_end)?;

    // nothing was written yet: the child's read waits, until the parent has written
    let mut into = [0; 16];
    let mut answer = clay.read(child, ends.read_end, &mut into)?;
    while let Answer::Parked(call) = answer {
        assert_eq!(
            clay.write(parent, ends.write_end, b"hello")?,
            Answer::Done(5)
        );
        answer = clay.resume_read(call, &mut into)?;
    }
    if let Answer::Done(count) = answer {
        println!("the child read {}", String::from_utf8_lossy(&into[..count]));
    }

    // the parent ends, and so does what the child can read
    clay.exit(parent)?;
    if let Answer::Done(count) = clay.read(child, ends.read_end, &mut into)? {
        println!("and then {count} bytes");
    }
    Ok(())
}
