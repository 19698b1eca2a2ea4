#!/usr/bin/env python3
"""Checks a report of `gqlreg check --format sarif` against SARIF 2.1.0: tests/sarif.py FILE.

It states the rules of the standard (OASIS SARIF 2.1.0) for the members that the report has: which are
required, their types, which values they may have, and the references from results to rules. The driver has
a version, and each result a fingerprint of its own. It does not validate against the JSON schema of the
standard. Prints the mistakes, then `N results, M mistakes`; the
status is 1 where there are some."""
import json
import re
import sys

mistakes = []
fingerprints = set()


def wrong(at, what):
    mistakes.append(f'{at}: {what}')


def typed(at, value, kind):
    """Whether the value has the type; a mistake if not."""
    good = isinstance(value, kind) and not (kind is int and isinstance(value, bool))
    if not good:
        wrong(at, f'no {kind.__name__}')
    return good


def members(at, value, required, optional=()):
    """Whether the value is an object with the required members, and no others than the optional ones."""
    if not typed(at, value, dict):
        return False
    for name in required:
        if name not in value:
            wrong(at, f'{name} is missing')
    for name in value:
        if name not in required and name not in optional:
            wrong(at, f'{name} is not a member that this check knows')
    return all(name in value for name in required)


def message(at, value):
    # 3.11: a message has a text
    if members(at, value, ['text']):
        typed(f'{at}.text', value['text'], str)


def location(at, value):
    # 3.28, 3.29: an artifact's location and a region
    if not members(at, value, ['physicalLocation']):
        return
    place = value['physicalLocation']
    at += '.physicalLocation'
    if not members(at, place, ['artifactLocation'], ['region']):
        return
    artifact = place['artifactLocation']
    if members(f'{at}.artifactLocation', artifact, ['uri']):
        # 3.4.3: a URI reference (RFC 3986), here a relative one
        uri = artifact['uri']
        if not re.fullmatch(r"(?:[A-Za-z0-9._~!$&'()*+,;=:@/-]|%[0-9A-F]{2})+", uri):
            wrong(f'{at}.artifactLocation.uri', f'{uri!r} is no URI reference')
        if re.match(r'[A-Za-z][A-Za-z0-9+.-]*:', uri):
            wrong(f'{at}.artifactLocation.uri', f'{uri!r} has a scheme')
    if 'region' in place and members(f'{at}.region', place['region'], ['startLine'], ['startColumn']):
        # 3.30.5, 3.30.6: from 1
        for name, number in place['region'].items():
            if typed(f'{at}.region.{name}', number, int) and number < 1:
                wrong(f'{at}.region.{name}', 'below 1')


def check_rule(at, rule, ids):
    # 3.49: an id that is unique in the driver
    if members(at, rule, ['id'], ['shortDescription', 'fullDescription', 'help', 'helpUri']):
        if rule['id'] in ids:
            wrong(at, f"a second rule {rule['id']}")
        ids.append(rule['id'])
        for name in ('shortDescription', 'fullDescription'):
            if name in rule:
                message(f'{at}.{name}', rule[name])


def check_result(at, result, ids):
    optional = ['ruleIndex', 'level', 'locations', 'relatedLocations', 'baselineState',
                'partialFingerprints']
    if not members(at, result, ['ruleId', 'message'], optional):
        return
    message(f'{at}.message', result['message'])
    # 3.27.5, 3.27.6: the rule at the index has the id
    index = result.get('ruleIndex')
    if index is not None and not (0 <= index < len(ids) and ids[index] == result['ruleId']):
        wrong(f'{at}.ruleIndex', f"no rule {result['ruleId']} at {index}")
    if result['ruleId'] not in ids:
        wrong(f'{at}.ruleId', f"no rule {result['ruleId']}")
    # 3.27.10, 3.27.24
    if result.get('level', 'warning') not in ('none', 'note', 'warning', 'error'):
        wrong(f'{at}.level', result['level'])
    if result.get('baselineState', 'new') not in ('new', 'unchanged', 'updated', 'absent'):
        wrong(f'{at}.baselineState', result['baselineState'])
    for name in ('locations', 'relatedLocations'):
        for number, place in enumerate(result.get(name, [])):
            location(f'{at}.{name}[{number}]', place)
    # 3.27.17: texts by name; no two results of a run are the same, so no two have the same
    prints = result.get('partialFingerprints')
    if not typed(f'{at}.partialFingerprints', prints, dict):
        return
    for name, value in prints.items():
        if typed(f'{at}.partialFingerprints.{name}', value, str) and value in fingerprints:
            wrong(f'{at}.partialFingerprints.{name}', f'{value} is that of another result')
        fingerprints.add(value)


def check_invocation(at, invocation):
    # 3.20.14: whether the tool ran to its end
    if not members(at, invocation, ['executionSuccessful'],
                   ['toolExecutionNotifications', 'properties']):
        return
    typed(f'{at}.executionSuccessful', invocation['executionSuccessful'], bool)
    for number, note in enumerate(invocation.get('toolExecutionNotifications', [])):
        where = f'{at}.toolExecutionNotifications[{number}]'
        if members(where, note, ['message'], ['level']):
            message(f'{where}.message', note['message'])


def check_run(at, run):
    if not members(at, run, ['tool', 'results'], ['columnKind', 'invocations']):
        return 0
    # 3.14.17
    if run.get('columnKind') not in ('utf16CodeUnits', 'unicodeCodePoints'):
        wrong(f'{at}.columnKind', run.get('columnKind'))
    ids = []
    if members(f'{at}.tool', run['tool'], ['driver']):
        driver = run['tool']['driver']
        if members(f'{at}.tool.driver', driver, ['name', 'version'], ['rules', 'informationUri']):
            typed(f'{at}.tool.driver.version', driver['version'], str)
            for number, rule in enumerate(driver.get('rules', [])):
                check_rule(f'{at}.tool.driver.rules[{number}]', rule, ids)
    for number, result in enumerate(run['results']):
        check_result(f'{at}.results[{number}]', result, ids)
    for number, invocation in enumerate(run.get('invocations', [])):
        check_invocation(f'{at}.invocations[{number}]', invocation)
    return len(run['results'])


def main():
    with open(sys.argv[1], encoding='utf-8') as file:
        report = json.load(file)
    results = 0
    if members('$', report, ['version', 'runs'], ['$schema']):
        if report['version'] != '2.1.0':
            wrong('$.version', report['version'])
        for number, run in enumerate(report['runs']):
            results += check_run(f'$.runs[{number}]', run)
    for mistake in mistakes:
        print(mistake)
    print(f'{results} results, {len(mistakes)} mistakes')
    return 1 if mistakes else 0


sys.exit(main())
