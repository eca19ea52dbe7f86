//! The table of small facts, the slips, and answers worked out by hand.

use second::ask::{ask, STORE_LEAST, WORK_LEAST};
use second::frames::{ended, entry, form, gid, object, path, role, takes, text, uid, Frame};
use second::generator::{case, Size};
use second::model::{allowed, grants, image, role_in_force, under};
use second::policy::{is_path, load, Policy};
use second::random::Random;

fn policy(list: Vec<Frame>) -> Policy {
    load(&text(&ended(list))).unwrap()
}

#[test]
fn under_by_names() {
    assert!(!under(b"/binary/", b"/bin/"));
    assert!(under(b"/bin/su/", b"/bin/"));
    assert!(under(b"/", b"/"));
    assert!(under(b"/bin/", b"/"));
    assert!(!under(b"/", b"/bin/"));
    assert!(!under(b"/bin/../etc/", b"/etc/"));
    assert!(under(b"/bin/../etc/", b"/bin/../"));
    // By names and by bytes is the same.
    fn names(p: &[u8]) -> Vec<&[u8]> {
        p.split(|b| *b == b'/').filter(|n| !n.is_empty()).collect()
    }
    let mut random = Random::new(7);
    for _ in 0..500 {
        let case = case(&mut random, Size::Usual);
        let paths: Vec<&[u8]> = case
            .frames
            .iter()
            .filter(|f| f[0] == 0x20)
            .map(|f| &f[1..])
            .collect();
        for p in &paths {
            assert!(is_path(p));
            for q in &paths {
                assert_eq!(under(p, q), names(p).starts_with(&names(q)));
            }
        }
    }
}

#[test]
fn role_in_force_by_rank() {
    let mut list = vec![
        form(),
        role(b'g', 100),
        role(b's', 0),
        role(b'-', 0),
        role(b'u', 1000),
        path(b"/"),
    ];
    for n in 0..4 {
        list.extend([entry(n, 0, 0, 0, 0), object(0, 0)]);
    }
    let policy = policy(list);
    assert_eq!(role_in_force(&policy, Some(1), 1000, 100), 1);
    assert_eq!(role_in_force(&policy, Some(1), 1, 1), 1);
    assert_eq!(role_in_force(&policy, None, 1000, 100), 3);
    assert_eq!(role_in_force(&policy, None, 1000, 1), 3);
    assert_eq!(role_in_force(&policy, None, 1, 100), 0);
    assert_eq!(role_in_force(&policy, None, 1, 1), 2);
    // A UID is no GID.
    assert_eq!(role_in_force(&policy, None, 100, 1000), 2);
}

/// Paths 0 `/`, 1 `/bin/`, 2 `/bin/su/`; entries of the default role for the subjects; the objects in the first.
fn image_of_bin(subjects: &[u8], objects: &[u8]) -> Vec<u8> {
    let mut list = vec![
        form(),
        role(b'-', 0),
        path(b"/"),
        path(b"/bin/"),
        path(b"/bin/su/"),
    ];
    for subject in subjects {
        list.push(entry(0, *subject, 0, 0, 0));
        list.extend(objects.iter().map(|o| object(*o, 4)));
    }
    let policy = policy(list);
    let place = objects.iter().position(|o| *o == 1).unwrap();
    image(&policy, 0, place)
}

#[test]
fn images() {
    assert_eq!(image_of_bin(&[0, 1, 2], &[0, 1, 2]), [1]);
    assert_eq!(image_of_bin(&[0, 1, 2], &[0, 1]), [1, 2]);
    assert_eq!(image_of_bin(&[0, 2], &[0, 1]), [0, 2]);
    // The order of the objects is of no weight.
    assert_eq!(image_of_bin(&[0, 1, 2], &[2, 1, 0]), [1]);
    assert_eq!(image_of_bin(&[0, 2], &[0, 2, 1]), [0]);
}

#[test]
fn modes() {
    assert!(!grants(9, 0));
    assert!(!grants(16, 1));
    assert!(!grants(16, 0));
    assert!(grants(1, 0) && !grants(1, 1));
    assert!(grants(2, 1) && !grants(2, 0));
    assert!(grants(23, 0) && grants(23, 1));
    assert!(!grants(31, 0) && !grants(31, 1));
}

#[test]
fn allowed_ids() {
    let lists = |mode: u8| {
        let mut list = vec![
            form(),
            role(b'-', 0),
            path(b"/"),
            entry(0, 0, 0, mode, 0),
            object(0, 0),
        ];
        if mode > 0 {
            list.extend([uid(5), uid(0)]);
        }
        policy(list).entries[0].users
    };
    let which = |mode| [0, 1, 5, u32::MAX - 1, u32::MAX].map(|id| allowed(&lists(mode), id));
    assert_eq!(which(0), [true, true, true, true, false]);
    assert_eq!(which(1), [true, false, true, false, false]);
    assert_eq!(which(2), [false, true, false, true, false]);
}

fn answer(list: Vec<Frame>, uid: u32, gid: u32, start: &[u8], target: &[u8], kind: u8) -> String {
    let text = text(&ended(list));
    let outcome = ask(
        &text,
        STORE_LEAST,
        WORK_LEAST,
        1000,
        uid,
        gid,
        start,
        target,
        kind,
    );
    assert_eq!(outcome.number, 0);
    String::from_utf8(outcome.answer).unwrap()
}

/// None is written as the smallest allowed id without a role.
#[test]
fn none_as_an_id() {
    let with = |mode: u8, ids: &[u32]| {
        let mut list = vec![
            form(),
            role(b'-', 0),
            role(b'u', 0),
            role(b'u', 2),
            path(b"/"),
        ];
        list.extend([entry(0, 0, 0, 1, 1), object(0, 1)]);
        list.extend([entry(1, 0, 1, mode, 1), object(0, 0)]);
        list.extend(ids.iter().map(|id| uid(*id)));
        list.extend([entry(2, 0, 0, 1, 1), object(0, 0)]);
        answer(list, 0, 0, b"/", b"/", 0)
    };
    assert_eq!(with(0, &[]), "800100010001\n8200000001\n");
    assert_eq!(with(2, &[]), "800100010001\n8200000001\n");
    assert_eq!(with(2, &[3, 1]), "800100010001\n8200000004\n");
    assert_eq!(with(1, &[9, 7, 2, 0]), "800100010001\n8200000007\n");
    assert_eq!(with(1, &[u32::MAX - 1]), "800100010001\n82fffffffe\n");
    // Only role 2 is allowed: the start and it are all states.
    assert_eq!(with(1, &[2, 0]), "800000020000\n");
    assert_eq!(with(1, &[]), "800000010000\n");
}

/// Roles 0 default, 1 user UID 5; paths 0 `/`, 1 `/a/`, 2 `/a/b/`. The user role runs `/a/`.
fn runs(caps: u8, users: &[u32], more: Vec<Frame>) -> Vec<Frame> {
    let mut list = vec![
        form(),
        role(b'-', 0),
        role(b'u', 5),
        path(b"/"),
        path(b"/a/"),
        path(b"/a/b/"),
    ];
    list.extend([entry(1, 0, caps, 1, 1), object(0, 0), object(1, 4)]);
    list.extend(users.iter().map(|id| uid(*id)));
    list.extend(more);
    list
}

/// At an exec no capability is asked, a kept id need not be allowed, and the executed path is the new subject
/// if its object is the named one, else the object.
#[test]
fn execs() {
    // The default role reads at `/`. `/a/` is under the subject `/`, whose object is not `/a/`.
    let more = vec![entry(0, 0, 0, 1, 1), object(0, 1)];
    let list = runs(0, &[6], more);
    assert_eq!(
        answer(list, 5, 9, b"/", b"/", 0),
        "800100010001\n8401010000000600000009\n"
    );
    // The default role reads at `/a/b/`, a subject whose object is `/a/`. Before it are opened the start, then,
    // by the exec, UID kept: `/` is the start itself, `/a/b/` is new; UID 6: `/` is new.
    let more = vec![
        entry(0, 0, 0, 1, 1),
        object(0, 0),
        entry(0, 2, 0, 1, 1),
        object(0, 1),
    ];
    let list = runs(0, &[6], more);
    assert_eq!(
        answer(list, 5, 9, b"/", b"/", 0),
        "800100030001\n8401020000000600000009\n"
    );
    // S is taken from all roles: `/a/` is no subject of the user role. With set_uid also `/` without a role is
    // opened before.
    let more = vec![
        entry(0, 0, 0, 1, 1),
        object(0, 0),
        entry(0, 1, 0, 1, 1),
        object(0, 1),
    ];
    let list = runs(1, &[9], more.clone());
    assert_eq!(
        answer(list, 5, 0, b"/", b"/", 0),
        "800100030001\n8401010000000900000000\n"
    );
    // Nothing allowed: the UID is kept, so no other role is reached.
    let list = runs(3, &[], more.clone());
    assert_eq!(answer(list, 5, 0, b"/", b"/", 0), "800000020000\n");
    // The user reads at `/a/` itself: kept comes before all others.
    let more = [&more[..], &[entry(1, 1, 0, 1, 1), object(0, 1)]].concat();
    let list = runs(0, &[9, 5], more);
    assert_eq!(
        answer(list, 5, 0, b"/x/", b"/", 0),
        "800100010001\n8401010000000500000000\n"
    );
}

/// A kept id without a role stays as it is: it is not written as the smallest one.
#[test]
fn kept_without_a_role() {
    let mut list = vec![form(), role(b'-', 0), path(b"/"), path(b"/a/")];
    list.extend([entry(0, 0, 3, 0, 0), object(0, 0), object(1, 4)]);
    list.extend([entry(0, 1, 3, 0, 0), object(0, 3)]);
    let all = answer(list, 77, 78, b"/b/", b"/c/", 1);
    assert_eq!(all, "800100010001\n8401010000004d0000004e\n");
}

/// Of several shortest runs the first: 81 before 82 before 83 before 84; then objects by place, not by number.
#[test]
fn order_of_steps() {
    // Role 0 default; 1 user 1; 2 group 1; 3, 4 special. All but the default grant.
    let build = |drop: usize, ids: (&[u32], &[u32]), objects: &[(u8, u8)]| {
        let mut list = vec![
            form(),
            role(b'-', 0),
            role(b'u', 1),
            role(b'g', 1),
            role(b's', 0),
            role(b's', 0),
        ];
        list.extend([path(b"/"), path(b"/a/"), path(b"/b/")]);
        if drop == 0 {
            list.extend([takes(0, 4), takes(0, 3)]);
        }
        list.push(entry(0, 0, if drop < 2 { 3 } else { 2 }, 1, 1));
        list.extend(objects.iter().map(|(path, modes)| object(*path, *modes)));
        list.extend(ids.0.iter().map(|id| uid(*id)));
        list.extend(ids.1.iter().map(|id| gid(*id)));
        for n in 1..5 {
            list.extend([entry(n, 0, 0, 1, 1), object(0, 3)]);
        }
        list.extend([
            entry(0, 1, 0, 1, 1),
            object(0, 3),
            entry(0, 2, 0, 1, 1),
            object(0, 3),
        ]);
        answer(list, 0, 0, b"/", b"/", 0)
    };
    let objects = [(0, 0), (2, 4), (1, 4)];
    assert_eq!(build(0, (&[1], &[1]), &objects), "800100010001\n8103\n");
    assert_eq!(
        build(1, (&[1], &[1]), &objects),
        "800100010001\n8200000001\n"
    );
    assert_eq!(
        build(2, (&[1], &[1]), &objects),
        "800100010001\n8300000001\n"
    );
    assert_eq!(
        build(2, (&[], &[]), &objects),
        "800100010001\n8402020000000000000000\n"
    );
    assert_eq!(
        build(2, (&[], &[]), &[(1, 4), (2, 4), (0, 0)]),
        "800100010001\n8401010000000000000000\n"
    );
    // Hidden objects are not run; an object that may be run but leads nowhere new is passed over.
    assert_eq!(
        build(2, (&[], &[]), &[(2, 12), (1, 4), (0, 0)]),
        "800100010001\n8401010000000000000000\n"
    );
    assert_eq!(
        build(2, (&[], &[]), &[(0, 4), (2, 0), (1, 4)]),
        "800100010001\n8401010000000000000000\n"
    );
    // One exec of `/` leads to both subjects below: by path number.
    assert_eq!(
        build(2, (&[], &[]), &[(0, 4)]),
        "800100010001\n8400010000000000000000\n"
    );
}
