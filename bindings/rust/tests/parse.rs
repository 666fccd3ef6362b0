use tera_parser::{Error, File, Limits, Source, USUAL_FAULTS, check, components, mend};

const TWICE: &str = "{% component a() %}{% endcomponent a %}\n{% component a() %}{% endcomponent %}";

#[test]
fn trees() {
    assert_eq!(Source::new("a").tree().unwrap(), "text \"a\"\n");
    assert_eq!(Source::new("").tree().unwrap(), "");
    assert_eq!(Source::new(b"{{ a }}").fault(), Ok(None));
    let longer_than_the_guess = "{{a}}".repeat(2000);
    assert!(Source::new(&longer_than_the_guess).json().unwrap().len() > 100_000);
    let marked = Source { markers: "[%%][[]][##]", ..Source::new("[[ a ]]") };
    assert_eq!(marked.tree(), Source::new("{{ a }}").tree());
}

#[test]
fn faults() {
    let error = Source::new("é{{ a b }}").json().unwrap_err();
    assert!(error.to_string().starts_with("1:7: "), "{error}");
    let Error::Fault(fault) = error else { panic!("{error}") };
    assert_eq!((fault.span.start_col, fault.span.start), (6, 7));
    let fault = Source::new(TWICE).fault().unwrap().unwrap();
    assert_eq!(fault.message, "Template already contains a component named `a`");
    assert_eq!(fault.to_string(), format!("2:14: {}", fault.message));
    assert_eq!(fault.notes.len(), 1);
    assert_eq!((fault.notes[0].label.as_str(), fault.notes[0].span.start), ("first defined here", 13));
}

#[test]
fn what_cannot_be_read() {
    let limits = Limits { depth: 0, ..Limits::default() };
    let wrong = [
        (Source::new(b"\xff"), Error::NotUtf8),
        (Source { limits, ..Source::new("a") }, Error::BadLimits),
        (Source { markers: "", ..Source::new("a") }, Error::BadMarkers),
    ];
    for (source, error) in wrong {
        assert_eq!(source.tree(), Err(error.clone()));
        assert_eq!(source.json(), Err(error.clone()));
        assert_eq!(source.fault(), Err(error));
    }
}

#[test]
fn layouts() {
    assert_eq!(Source::new("{{user.name|upper}}").format().unwrap(), "{{ user.name | upper }}");
    assert!(matches!(Source::new("{{ 'a }}").format(), Err(Error::Fault(_))));
    assert_eq!(Source { markers: "aabb[[]]{##}", ..Source::new("a") }.format(), Err(Error::BadMarkers));
}

#[test]
fn files_together() {
    let ui = File { name: "ui.html", bytes: b"{% component ui.button(label: string) %}{{ label }}{% endcomponent %}" };
    let page = File { name: "page.html", bytes: b"{{ <ui.button/> }}" };
    let found = check(&[page], &[ui], USUAL_FAULTS).unwrap();
    assert_eq!(found.lines().count(), 1);
    assert!(found.starts_with(r#"{"file":"page.html","line":1,"#), "{found}");
    assert!(found.contains(r#""kind":"missing-argument""#), "{found}");
    let wrong = File { name: "wrong.html", bytes: b"{{ a b }}{{ c d }}" };
    assert_eq!(check(&[wrong], &[], USUAL_FAULTS).unwrap().lines().count(), 2);
    assert_eq!(check(&[wrong], &[], 0).unwrap().lines().count(), 1);
    assert_eq!(check(&[], &[], USUAL_FAULTS), Ok(String::new()));
    assert!(components(&[ui]).unwrap().contains(r#""name": "ui.button""#));
    assert_eq!(check(&[File { name: "a.html", bytes: b"\xff" }], &[], USUAL_FAULTS), Err(Error::NotUtf8));
}

#[test]
fn what_is_right_beside_faults() {
    let page = File { name: "page.html", bytes: b"{{ a b }}{{ c }}{% endif %}" };
    let mended = mend(&page, USUAL_FAULTS).unwrap();
    assert!(mended.starts_with(r#"{"tree":{"parent":null,"component_definitions":[],"nodes":[{"kind":"Expression""#));
    assert_eq!(mended.matches(r#""kind":"fault""#).count(), 2);
    assert!(mended.ends_with("\"more\":false}\n"), "{mended}");
    assert!(mend(&page, 1).unwrap().ends_with("\"more\":true}\n"));
    assert!(mend(&page, 0).unwrap().starts_with(r#"{"tree":null,"#));
    assert_eq!(mend(&File { name: "a.html", bytes: b"\xff" }, USUAL_FAULTS), Err(Error::NotUtf8));
}

#[test]
fn in_threads() {
    std::thread::scope(|scope| {
        for _ in 0..8 {
            scope.spawn(|| (0..200).for_each(|_| assert!(Source::new("{{ a | b }}").json().is_ok())));
        }
    });
}
