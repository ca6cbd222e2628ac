//! The closing sheet: it has every part, stands alone, and prints on one sheet of paper.
use pmn::{Call, Mask, Outcome};
use pmn_command::comparison::{Comparison, How, Verdict};
use pmn_command::sheet::{page, Closing, Named};
use std::path::{Path, PathBuf};
use std::process::{Command, Stdio};
use std::time::{Duration, Instant};

/// How long a browser may take.
const PATIENCE: Duration = Duration::from_secs(100);

const SAMPLES: [&str; 9] =
    ["f", "full_rack", "corner_pin", "shadow_rack", "strapped_pin", "far_fold", "no_fold", "tolerant_rack", "strict_pin"];

fn sample(name: &str) -> Mask {
    let file = Path::new(env!("CARGO_MANIFEST_DIR")).join(format!("../../samples/{name}.pmn"));
    Mask::read(&std::fs::read(file).expect("the sample is there")).expect("the library accepts the samples")
}

/// A network as large as any: 128 gates of 16 feeds.
fn largest() -> Mask {
    let mut state = 7_u64;
    let mut chance = |limit: u64| {
        state = state.wrapping_mul(6_364_136_223_846_793_005).wrapping_add(1_442_695_040_888_963_407);
        (state >> 33) % limit
    };
    let mut file = vec![b'P', b'M', b'N', 1, 0, 40, 128, 16];
    for gate in 0..128 {
        let mut signals = std::collections::BTreeSet::new();
        while signals.len() < 16 {
            signals.insert(chance(40 + gate) as u8);
        }
        file.push(16);
        file.extend((chance(9) as i32 - 4).to_le_bytes());
        for signal in signals {
            let weight = [-5, -3, -2, -1, 1, 2, 3, 700][chance(8) as usize];
            file.push(signal);
            file.extend(i32::to_le_bytes(weight));
        }
    }
    file.extend(152..168);
    Mask::read(&file).expect("a network of the largest size")
}

/// What a sweep leaves.
fn folded(mask: &Mask) -> Mask {
    mask.run(&[Call::Sweep(128)]).0
}

fn alike() -> Comparison {
    Comparison { verdict: Verdict::Alike, how: How::List }
}

/// The list with a sweep alone.
fn swept(mask: &Mask) -> Vec<(String, String)> {
    let answer = match mask.run(&[Call::Sweep(128)]).1[..] {
        [Ok(Outcome::Swept(collapses))] => format!("folded {collapses}"),
        _ => panic!("a sweep is refused on no mask"),
    };
    vec![("sweep 128".to_string(), answer)]
}

/// A list of many calls, all of them with an answer that is long.
fn calls(count: usize) -> Vec<(String, String)> {
    (0..count).map(|n| (format!("merge {} 167 32 {}", 40 + n % 100, n % 32), "refused 15 disagrees".to_string())).collect()
}

/// The page for a mask and what a sweep leaves of it.
fn page_of(name: &str, mask: &Mask, list: Option<&[(String, String)]>, comparison: &Comparison) -> String {
    let folded = folded(mask);
    page(&Closing {
        before: Named { name: &format!("{name}.pmn"), mask },
        after: Named { name: &format!("{name}.folded.pmn"), mask: &folded },
        list,
        comparison,
        date: Some("2026-01-31"),
    })
}

fn sample_page(name: &str) -> String {
    let mask = sample(name);
    page_of(name, &mask, Some(&swept(&mask)), &alike())
}

/// The text of a page, without the tags.
fn text(page: &str) -> String {
    page.split('<').map(|piece| piece.split_once('>').map_or(piece, |(_, text)| text)).collect()
}

fn assert_has(page: &str, wanted: &[&str]) {
    for piece in wanted {
        assert!(page.contains(piece), "the page lacks `{piece}`");
    }
}

/// Every tag that opens closes again, in order, and every attribute is in quotes.
fn assert_closed(page: &str) {
    let mut open: Vec<&str> = Vec::new();
    let body = page.strip_prefix("<!DOCTYPE html>\n").expect("the page says that it is HTML");
    for piece in body.split('<').skip(1) {
        let (tag, after) = piece.split_once('>').expect("a tag that ends");
        assert!(!after.contains('>'), "a sign that is not escaped: {after}");
        assert_eq!(tag.matches('"').count() % 2, 0, "quotes that do not close: {tag}");
        let name = tag.trim_start_matches('/').split([' ', '/']).next().unwrap_or("");
        match (tag.starts_with('/'), tag.ends_with('/')) {
            (true, _) => assert_eq!(open.pop(), Some(name)),
            (false, false) => open.push(name),
            (false, true) => (),
        }
    }
    assert!(open.is_empty(), "tags that do not close: {open:?}");
}

#[test]
fn the_page_has_every_part() {
    let page = sample_page("shadow_rack");
    let text = text(&page);
    assert_has(&page, &["<h1 class=\"alike\">Alike: ", "<figcaption>old: shadow_rack.pmn", "<figcaption>new: shadow_rack.folded.pmn"]);
    assert_has(&page, &["468 bytes</td><td>268 bytes</td><td>−200", "gates</th><td>30</td><td>10</td><td>−20"]);
    assert_has(&page, &["cost</th><td>80</td><td>90</td><td>+10", "levels</th><td>3</td><td>1</td><td>−2"]);
    // as the programs crc32 and sha256sum print them of samples/shadow_rack.pmn
    assert_has(&text, &["4bcb5a53", "48946cece8778478a77f099f2c20bffd883a195365e488be439dd0db3ace0064"]);
    assert_has(&page, &["<b>sweep 128</b> folded 20", "How the two were compared", "the theorem over lists of calls covers every frame"]);
    assert_has(&page, &["<b>Proved:</b> every call of the library", "<b>Tested:</b> that this command hands files and numbers on"]);
    assert_has(&page, &["<span>date</span><b>2026-01-31</b>", "<span>name</span>"]);
    assert_eq!(page.matches("<svg ").count(), 2);
    assert!(page.ends_with("<span class=\"tick\"></span> masks folded, old and new read alike</p>\n</footer>\n</main>\n</body>\n</html>\n"));
}

#[test]
fn without_a_list_and_a_date_their_places_are_empty() {
    let mask = sample("f");
    let closing = |list| Closing {
        before: Named { name: "f.pmn", mask: &mask },
        after: Named { name: "f.pmn", mask: &mask },
        list,
        comparison: &Comparison { verdict: Verdict::Alike, how: How::EveryFrame(8) },
        date: None,
    };
    let page = page(&closing(None));
    assert!(!page.contains("<ol"));
    assert_has(&page, &["<span>date</span><b></b>", "read on every frame, 8 in all", "<td>none</td>"]);
    assert_closed(&page);
}

#[test]
fn every_tag_closes() {
    for name in SAMPLES {
        assert_closed(&sample_page(name));
    }
    assert_closed(&page_of("largest", &largest(), Some(&calls(500)), &alike()));
}

#[test]
fn names_and_calls_are_escaped() {
    let mask = sample("f");
    let name = "a & b <i> \"c\" 'd'\n.pmn";
    let list = [("drop <3>".to_string(), "\"&".to_string())];
    let comparison = Comparison { verdict: Verdict::Alike, how: How::Solver("<clasp>".to_string()) };
    let named = || Named { name, mask: &mask };
    let page = page(&Closing { before: named(), after: named(), list: Some(&list), comparison: &comparison, date: Some("<&>") });
    assert_closed(&page);
    assert_has(&page, &["<b>a &amp; b &lt;i&gt; &quot;c&quot; &#39;d&#39;\u{fffd}.pmn</b>", "drop &lt;3&gt;</b> &quot;&amp;"]);
    assert_has(&page, &["the solver &lt;clasp&gt;", "<b>&lt;&amp;&gt;</b>"]);
    assert!(!page.contains("<i>&quot;") && !page.contains("<clasp>"));
}

#[test]
fn three_verdicts() {
    let mask = sample("full_rack");
    let of = |verdict, how| page_of("full_rack", &mask, None, &Comparison { verdict, how });
    let some = How::SomeFrames { random: 300_000, near_edge: 100_000 };

    let alike = of(Verdict::Alike, How::Solver("clasp".to_string()));
    assert_has(&alike, &["<h1 class=\"alike\">Alike: old and new read alike on every frame.</h1>", "there is no solution"]);
    assert_has(&alike, &["class=\"tick\"", "</span> masks folded, old and new read alike</p>"]);

    let apart = of(Verdict::Apart { frame: 0x8009, first: 0b11, second: 0b100 }, some.clone());
    assert_has(&apart, &["<h1 class=\"apart\">Not alike on frame 32777 (0x8009): light patches 0, 3 and 15 only.</h1>"]);
    assert_has(&apart, &["On frame 32777 outputs 0 and 1 are 1 in the old mask alone, and output 2 is 1 in the new mask alone"]);
    assert_has(&apart, &["<p class=\"last\">old and new do not read alike</p>"]);

    let open = of(Verdict::NotSeenApart, some);
    assert_has(&open, &["<h1 class=\"open\">No difference seen, which is no proof: not every frame was read.</h1>"]);
    assert_has(&open, &["Of 1,099,511,627,776 frames both masks were read on 300,000 at random and 100,000 near the edge"]);
    assert_has(&open, &["<p class=\"last\">not shown that old and new read alike</p>"]);

    let each = of(Verdict::Alike, How::EachOutput(160));
    assert_has(&each, &["every frame of the patches that it depends on, 160 in all", "masks folded, old and new read alike</p>"]);

    for page in [apart, open] {
        assert!(!page.contains("class=\"tick\"") && !page.contains("masks folded"));
        assert_closed(&page);
    }
}

#[test]
fn of_a_long_list_the_first_and_the_last_calls_are_printed() {
    let mask = sample("f");
    let of = |count| page_of("f", &mask, Some(&calls(count)), &alike());
    assert_eq!(of(200).matches("<li>").count(), 200);
    assert_eq!(of(0).matches("<li").count(), 0);
    let long = of(201);
    assert_eq!(long.matches("<li>").count(), 120);
    assert_has(&long, &["201 calls", "<i>60</i>", "81 calls not printed", "<i>142</i>", "<i>201</i>"]);
    assert!(!long.contains("<i>61</i>") && !long.contains("<i>141</i>"));
}

#[test]
fn the_page_names_nothing_outside() {
    for page in [sample_page("shadow_rack"), page_of("largest", &largest(), None, &alike())] {
        for outside in ["http", "src=", "href", "url(", "@import", "@font-face", "<script", "<link", "<iframe", "<object"] {
            assert!(!page.contains(outside), "the page has `{outside}`");
        }
    }
}

/// A browser that prints without a window, where one is installed.
fn browser() -> Option<&'static str> {
    let answers = |name: &&str| Command::new(name).arg("--version").stdout(Stdio::null()).stderr(Stdio::null()).status().is_ok();
    ["chromium", "chromium-browser", "google-chrome", "google-chrome-stable"].into_iter().find(answers)
}

/// The folder in which the pages are left, to look at.
fn folder() -> PathBuf {
    let folder = Path::new(env!("CARGO_TARGET_TMPDIR")).join("sheets");
    std::fs::create_dir_all(&folder).expect("a folder for the pages");
    folder
}

/// Prints a page, unless the browser takes too long.
fn printed(browser: &str, html: &Path, folder: &Path) -> Option<Vec<u8>> {
    let (pdf, profile) = (html.with_extension("pdf"), folder.join("profile"));
    let mut program = Command::new(browser)
        .args(["--headless", "--no-sandbox", "--disable-gpu", "--disable-background-networking", "--disable-extensions"])
        .args(["--disable-dev-shm-usage", "--no-first-run", "--no-pdf-header-footer"])
        .arg(format!("--user-data-dir={}", profile.display()))
        .arg(format!("--print-to-pdf={}", pdf.display()))
        .arg(html)
        .stdout(Stdio::null())
        .stderr(Stdio::null())
        .spawn()
        .expect("the browser starts");
    let start = Instant::now();
    while start.elapsed() < PATIENCE {
        if let Some(status) = program.try_wait().expect("the browser's status") {
            assert!(status.success(), "{browser} prints {}", html.display());
            return std::fs::read(pdf).ok();
        }
        std::thread::sleep(Duration::from_millis(20));
    }
    program.kill().and_then(|()| program.wait()).expect("the browser ends");
    None
}

/// How many sheets a printed page takes up.
fn sheets(pdf: &[u8]) -> usize {
    let text = String::from_utf8_lossy(pdf);
    text.matches("/Type /Page").count() - text.matches("/Type /Pages").count()
}

/// All pages as one, each from a new sheet on: on A4, and then on Letter.
fn bound(pages: &[String]) -> String {
    let (head, _) = pages[0].split_once("</style>").expect("a page with its style");
    let inside = |page: &str| page.split_once("<body>").and_then(|(_, rest)| rest.split_once("</body>")).expect("a body").0.to_string();
    let on = |paper: &str| -> String { pages.iter().map(|page| format!("<div class=\"{paper}\">{}</div>", inside(page))).collect() };
    let papers = "@page a4 { size: A4 portrait } @page letter { size: letter portrait } .a4 { page: a4 } .letter { page: letter }";
    let breaks = "div + div > main { break-before: page }";
    format!("{head}{papers} {breaks}\n</style>\n</head>\n<body>{}{}</body>\n</html>\n", on("a4"), on("letter"))
}

#[test]
fn the_samples_print_on_one_sheet_each() {
    let rack = sample("shadow_rack");
    let every_patch = Verdict::Apart { frame: (1 << 40) - 1, first: 1, second: 2 };
    let some = How::SomeFrames { random: 200_000, near_edge: 200_000 };
    let mut pages: Vec<String> = SAMPLES.iter().map(|name| sample_page(name)).collect();
    pages.push(page_of("every_patch", &rack, None, &Comparison { verdict: every_patch, how: some.clone() }));
    pages.push(page_of("open", &rack, Some(&calls(40)), &Comparison { verdict: Verdict::NotSeenApart, how: some }));
    pages.push(page_of(&"a_long_name_".repeat(20), &rack, Some(&swept(&rack)), &alike()));
    let one_sheet = pages.len();
    pages.push(page_of("two_hundred_calls", &rack, Some(&calls(200)), &alike()));
    let folder = folder();
    for (number, page) in pages.iter().enumerate() {
        std::fs::write(folder.join(format!("page{number}.html")), page).expect("a page to look at");
    }
    let largest = largest();
    let page = page_of("largest", &largest, Some(&swept(&largest)), &alike());
    std::fs::write(folder.join("largest.html"), page).expect("a page to look at");
    let all = folder.join("all.html");
    std::fs::write(&all, bound(&pages)).expect("the pages as one");
    match browser().map(|browser| printed(browser, &all, &folder)) {
        Some(Some(pdf)) => assert_eq!(sheets(&pdf), 2 * (one_sheet + 2)),
        Some(None) => eprintln!("passed over: the browser takes too long"),
        None => eprintln!("passed over: no browser is installed that could print {}", all.display()),
    }
}
