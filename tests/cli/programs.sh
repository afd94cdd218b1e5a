# Programs that must compile, and programs that must not. `compiles NAME WANTED CRATE` compiles the program of a crate;
# WANTED is what the compiler says about it.
mkdir house
tar -C "$top" --exclude=out -cf - crates crates.txt HANDLES | tar -C house -xf -
mkdir -p house/crates/one_fault/src house/crates/kept_name/src
echo 'one_fault: ft_isa ft_types ft_machine ft_runs' >>house/crates.txt
echo 'kept_name: ft_view' >>house/crates.txt

compiles() {
  report "$1" "$2" "$(cd "house/crates/$3" && rt try 2>&1 | grep -o 'run=ended status=0\|error\[[^:]*: [^:]*' | head -n 1)"
}

# At most one fault: a struck run has no method to strike it, and striking consumes the run without a fault. The program
# strikes a run, and then does THEN.
strikes() {
  cat >house/crates/one_fault/src/main.rt <<END
//! Strikes a run.
use ft_runs::{Clean, Hit};
use ft_isa::Site;
use ft_machine::Stepped;
use ft_types::Program;

/// Strikes the word \`d\`, and goes on.
pub fn strike_and_go_on<'a, P: Program>(mut clean: Clean<'a, P>) -> Option<Stepped> {
    match clean.strike(Site::D, 1, &[]) {
        Hit::Struck(mut struck) => Some($3),
        Hit::Idle(_) => None,
    }
}

fn main(rt: HostRuntime) {}
END
  compiles "$1" "$2" one_fault
}

strikes 'a step after a strike' 'run=ended status=0' 'struck.step()'
strikes 'a second strike' 'error[unknown-method]: no method named `strike` found for type `Struck<P>`' \
  '{ struck.strike(Site::D, 2, &[]); struck.step() }'
strikes 'a step without the strike' 'error[borrow-e0382]: borrow of moved value' 'clean.step()'

# A name is a slice of an object's bytes: it may outlive the view, but not the bytes. The program takes a name, does
# THEN, and then reads the name.
keeps() {
  cat >house/crates/kept_name/src/main.rt <<END
//! Keeps a name.
use ft_view::View;
use std::alloc::Global;

/// The first byte of the name of cell 0.
pub fn first_byte(alloc: Global, object: &[u8]) -> Option<u8> {
    let Ok(bytes) = Vec::from_slice(alloc, object) else {
        return None;
    };
    let view = match View::over(bytes.as_slice()) {
        Ok(view) => view,
        Err(_) => return None,
    };
    let name = view.name_of(0);
    $3
    Some(name[0])
}

fn main(rt: HostRuntime) {}
END
  compiles "$1" "$2" kept_name
}

keeps 'a name when the view is gone' 'run=ended status=0' 'drop(view);'
keeps 'a name when the bytes are gone' 'error[borrow-e0505]: cannot move out of `bytes` because it is borrowed' 'drop(view); drop(bytes);'
