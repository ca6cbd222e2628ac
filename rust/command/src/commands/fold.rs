//! fold: a mask with fewer gates that reads every frame as before.
use super::{FORCE, OUT};
use crate::arguments::{wrong, Arguments, CommandOption, Form};
use crate::comparison::SOLVER_SECONDS;
use crate::failure::{Failure, Status};
use crate::files::{self, read_mask, Named, Target};
use crate::output::Output;
use crate::progress::Progress;
use crate::search::{search, Options};
use crate::solver::{Solver, Verdict};
use crate::{script, text};
use pmn::{Call, Mask, Refusal};

/// The reader limit of a sweep that collapses whatever can be.
const ANY_READERS: u64 = 128;

/// The longest search, in seconds.
const LONGEST_SEARCH: f64 = 1e6;

/// `fold FILE -o OUT`
pub static FOLD: Form = Form {
    name: "fold",
    usage: "FILE -o OUT",
    summary: "fold gates into their readers",
    about: "Writes the mask after a sweep: the lowest gate that collapses, again and again. Prints gates, cost and levels before and after,
and how many gates were folded, as the program `fold` does. No reading changes on any frame: that is proved.

With --search a list of calls is looked for that leaves fewer gates than one sweep, then less cost, then fewer levels.",
    words: (1, 1),
    options: &[&[
        OUT,
        FORCE,
        CommandOption::value("-b", "B", "collapse only gates with at most B readers (128)"),
        CommandOption::value("--search", "SECONDS", "look for a better list of calls for so long"),
        CommandOption::value("--seed", "N", "where the search begins (1)"),
        CommandOption::output("--list", "LIST", "write the list of calls, as `pmn run` takes it"),
        CommandOption::output("--question", "QUESTION", "write the question for before and after, as solvers take it"),
        CommandOption::flag("--solve", "hand the question to clasp or minisat+, and say the verdict"),
        CommandOption::value("--solver", "NAME", "hand it to this solver"),
        CommandOption::value("--solver-seconds", "N", "how long the solver may take (60)"),
    ]],
};

/// Folds a mask.
pub fn fold(arguments: &Arguments, out: &mut Output) -> Result<Status, Failure> {
    let targets = Targets::of(arguments)?;
    let plan = Plan::of(arguments)?;
    let solving = Solving::of(arguments)?;
    let named = read_mask(arguments.word(0))?;
    let folded = Folded::by(&plan, &named)?;
    let verdict = solving.verdict(&named, &folded.question)?;
    targets.write(&folded, out)?;
    out.text(&text::sizes(named.mask.report(), folded.after.report()))?;
    out.line(format_args!("folded {}", folded.count))?;
    if let Some(tried) = folded.tried {
        out.line(format_args!("tried {tried}"))?;
    }
    if let Some(verdict) = verdict {
        out.line(verdict)?;
    }
    Ok(Status::Done)
}

/// The files that are written.
struct Targets {
    mask: Target,
    list: Option<Target>,
    question: Option<Target>,
}

impl Targets {
    fn of(arguments: &Arguments) -> Result<Targets, Failure> {
        let targets = Targets {
            mask: Target::of(arguments, "-o")?,
            list: Target::if_given(arguments, "--list")?,
            question: Target::if_given(arguments, "--question")?,
        };
        let given: Vec<&Target> = [Some(&targets.mask), targets.list.as_ref(), targets.question.as_ref()].into_iter().flatten().collect();
        files::test_distinct(&given)?;
        Ok(targets)
    }

    fn write(&self, folded: &Folded, out: &mut Output) -> Result<(), Failure> {
        let list = script::text(&folded.calls);
        let mut written = vec![(&self.mask, folded.after.bytes())];
        written.extend(self.list.as_ref().map(|target| (target, list.as_bytes())));
        written.extend(self.question.as_ref().map(|target| (target, folded.question.as_bytes())));
        files::write_all(&written, out)
    }
}

/// What a fold gives.
struct Folded {
    calls: Vec<Call>,
    after: Mask,
    /// how many gates were folded into their readers
    count: u64,
    /// how many lists a search tried
    tried: Option<u64>,
    /// the question for before and after
    question: String,
}

impl Folded {
    /// What the library leaves of a mask by the calls of a plan.
    fn by(plan: &Plan, named: &Named) -> Result<Folded, Failure> {
        let refused = |refusal: Refusal| Failure::refused(&named.name, refusal);
        let (calls, tried) = plan.calls(&named.mask);
        let (after, answers) = named.mask.run(&calls);
        if let (Plan::Sweep(_), Some(Err(refusal))) = (plan, answers.first()) {
            return Err(refused(*refusal));
        }
        let question = named.mask.question(&after).map_err(refused)?;
        Ok(Folded { count: script::folded(&calls, &answers), calls, after, tried, question })
    }
}

/// How the calls are chosen.
enum Plan {
    Sweep(u64),
    Search(Options),
}

impl Plan {
    fn of(arguments: &Arguments) -> Result<Plan, Failure> {
        let Some(word) = arguments.value("--search") else {
            if arguments.has("--seed") {
                return Err(wrong("--seed is for --search"));
            }
            return Ok(Plan::Sweep(arguments.number("-b", ANY_READERS)?));
        };
        if arguments.has("-b") {
            return Err(wrong("give -b or --search, not both"));
        }
        let seconds = word.to_str().and_then(|text| text.parse::<f64>().ok()).filter(|seconds| (0.0..=LONGEST_SEARCH).contains(seconds));
        let seconds = seconds.ok_or_else(|| wrong("--search needs a number of seconds, up to 1000000"))?;
        Ok(Plan::Search(Options { seconds, seed: arguments.number("--seed", 1)? }))
    }

    /// The calls, and how many lists were tried to find them.
    fn calls(&self, mask: &Mask) -> (Vec<Call>, Option<u64>) {
        match self {
            Plan::Sweep(limit) => (vec![Call::Sweep(*limit)], None),
            Plan::Search(options) => {
                let mut progress = Progress::new();
                let found = search(mask, options, &mut |size, tried| {
                    progress.show(|| format!("gates {} cost {} levels {}, {tried} lists tried", size.gates, size.cost, size.levels));
                });
                (found.calls, Some(found.tried))
            }
        }
    }
}

/// Whether a solver is asked, and which.
enum Solving {
    NotAsked,
    NoneThere,
    Ask(Solver, u64),
}

impl Solving {
    fn of(arguments: &Arguments) -> Result<Solving, Failure> {
        let seconds = arguments.number("--solver-seconds", SOLVER_SECONDS)?;
        let solver = match arguments.value("--solver") {
            Some(name) => Some(Solver::named(name)?),
            None if arguments.has("--solve") => Solver::any(),
            None => return Ok(Solving::NotAsked),
        };
        Ok(solver.map_or(Solving::NoneThere, |solver| Solving::Ask(solver, seconds)))
    }

    /// The verdict in words, where it is asked for. A solution would show a fault, and ends the command.
    fn verdict(&self, named: &Named, question: &str) -> Result<Option<String>, Failure> {
        let (solver, seconds) = match self {
            Solving::NotAsked => return Ok(None),
            Solving::NoneThere => return Ok(Some("no solver: neither clasp nor minisat+ is on the PATH".to_string())),
            Solving::Ask(solver, seconds) => (solver, *seconds),
        };
        match solver.ask(question, seconds, &mut Progress::new())? {
            Verdict::Unsatisfiable => Ok(Some(format!("{}: unsatisfiable, no frame parts the two", solver.name))),
            Verdict::CouldNotTell(why) => Ok(Some(format!("{}: {why}", solver.name))),
            Verdict::Satisfiable(_) => Err(Failure::file(&named.name, format!("{} says satisfiable; nothing is written", solver.name))),
        }
    }
}
