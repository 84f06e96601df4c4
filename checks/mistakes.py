"""Mistakes in a file of `serve`, and what standard error says of each."""

# A file that can be used.
GOOD = {"listen": "127.0.0.1:0", "workers": 4, "connections": 0, "services": [{"name": "pay"}, {"name": "ship"}]}


def service(**keys):
    return {"services": [{"name": "pay"}, {"name": "ship", **keys}]}


def config(**keys):
    return service(config=keys)


THRESHOLD = "services[1].config.failureRateThreshold"
KEYS = "there is no such key; the keys are"
NAME = "is not a name of 1 to 64 small letters, digits, hyphens and underscores"
PROGRAM_TEXT = "is not a program's bytes as text in hexadecimal"
ADDRESS = 'is not an IP address with a port, as "127.0.0.1:8080"'
# What is changed in that file, and what standard error says of it.
MISTAKES = [
    ({"worker": 4}, f"worker: {KEYS} listen, workers, keeper, connections, open, tickets, log and services"),
    ({"keeper": "locks"}, 'keeper: "locks" is not "lock" or "slot"'),
    ({"keeper": None}, 'keeper: null is not "lock" or "slot"'),
    ({"tickets": "by a clock"}, 'tickets: "by a clock" is not "from 1" or "by the clock"'),
    ({"tickets": 1}, 'tickets: 1 is not "from 1" or "by the clock"'),
    ({"log": "all"}, 'log: "all" is not "silent" or "changes"'),
    ({"log": True}, 'log: true is not "silent" or "changes"'),
    ({"listen": None}, f"listen: null {ADDRESS}"),
    ({"listen": "localhost:8080"}, f'listen: "localhost:8080" {ADDRESS}'),
    ({"listen": "127.0.0.1"}, f'listen: "127.0.0.1" {ADDRESS}'),
    ({"workers": 0}, "workers: 0 is not from 1 to 64"),
    ({"workers": 65}, "workers: 65 is not from 1 to 64"),
    ({"workers": "4"}, 'workers: "4" is not a whole number from 1 to 64'),
    ({"open": 0}, "open: 0 is not from 1 to 65536"),
    ({"open": 65537}, "open: 65537 is not from 1 to 65536"),
    ({"open": "8"}, 'open: "8" is not a whole number from 1 to 65536'),
    ({"workers": 4.0}, "workers: 4.0 is not a whole number from 1 to 64"),
    ({"connections": -1}, "connections: -1 is not a whole number from 0 to 18446744073709551615"),
    ({"services": {}}, "services: an object is not an array of 1 to 64 services"),
    ({"services": []}, "services: the array has 0 services, and not 1 to 64"),
    ({"services": [{"name": f"s{i}"} for i in range(65)]}, "services: the array has 65 services, and not 1 to 64"),
    ({"services": [{"name": "pay"}, "ship"]}, 'services[1]: "ship" is not an object'),
    ({"services": [{"name": "pay"}, {"name": "pay"}]}, 'services[1].name: "pay" is not new: another service has this name'),
    ({"services": [{}]}, "services[0].name: the key is missing"),
    ({"services": [{"name": "Pay"}]}, f'services[0].name: "Pay" {NAME}'),
    ({"services": [{"name": ""}]}, f'services[0].name: "" {NAME}'),
    ({"services": [{"name": "a" * 65}]}, f"services[0].name: a long text {NAME}"),
    (service(configs={}), f"services[1].configs: {KEYS} name, config, program, layout, journal and maxTicketAge"),
    (service(config=[]), "services[1].config: an array is not an object"),
    (service(program=""), "services[1].program: refused 1 Length slot 0"),
    (service(layout=3), "services[1].layout: 3 is not the whole number 1 or 2"),
    (service(journal="first"), 'services[1].journal: "first" is not "keep" or "last"'),
    (service(journal=True), 'services[1].journal: true is not "keep" or "last"'),
    (service(maxTicketAge="1m"), 'services[1].maxTicketAge: "1m" is not a whole number from 0 to 18446744073709551615'),
    (service(program="b7zz"), f'services[1].program: "b7zz" {PROGRAM_TEXT}'),
    (service(program=7), f"services[1].program: 7 {PROGRAM_TEXT}"),
    (service(program="b700000003000000 9500000000000000"), "services[1].program: refused 22 AnswerRange slot 1"),
    (config(failureRateThreshold=101), f"{THRESHOLD}: 101 is not from 1 to 100"),
    (config(failureRateThreshold=0), f"{THRESHOLD}: 0 is not from 1 to 100"),
    (config(failureRateThreshold=50.0), f"{THRESHOLD}: 50.0 is not a whole number from 1 to 100"),
    (config(failureRateThreshold=True), f"{THRESHOLD}: true is not a whole number from 1 to 100"),
    (config(failureRateTreshold=50), f"services[1].config.failureRateTreshold: {KEYS} those of the documentation's table"),
    (config(slowCallRateThreshold=101), "services[1].config.slowCallRateThreshold: 101 is not from 1 to 100"),
    (config(slowCallDurationThreshold=0), "services[1].config.slowCallDurationThreshold: 0 is not from 1 to 4294967296"),
    (
        config(permittedNumberOfCallsInHalfOpenState=10_001),
        "services[1].config.permittedNumberOfCallsInHalfOpenState: 10001 is not from 1 to 10000",
    ),
    (
        config(maxWaitDurationInHalfOpenState=1_099_511_627_777),
        "services[1].config.maxWaitDurationInHalfOpenState: 1099511627777 is not from 0 to 1099511627776",
    ),
    (
        config(slidingWindowType="COUNT"),
        'services[1].config.slidingWindowType: "COUNT" is not "COUNT_BASED" or "TIME_BASED"',
    ),
    (config(slidingWindowSize=10_001), "services[1].config.slidingWindowSize: 10001 is not from 1 to 10000"),
    (
        config(slidingWindowType="TIME_BASED", slidingWindowSize=3_601),
        "services[1].config.slidingWindowSize: 3601 is not from 1 to 3600",
    ),
    (config(minimumNumberOfCalls=0), "services[1].config.minimumNumberOfCalls: 0 is not from 1 to 1000000"),
    (config(waitDurationInOpenState=0), "services[1].config.waitDurationInOpenState: 0 is not from 1 to 1099511627776"),
    (config(maxConcurrentCalls=0), "services[1].config.maxConcurrentCalls: 0 is not from 1 to 10000"),
    (config(maxWaitDuration=5), "services[1].config.maxWaitDuration: 5 is not 0, the one value that is taken"),
]
# Whole files, and how what standard error says of each begins.
TEXTS = [
    (b"", "line 1, column 0: this is no JSON"),
    (b"[]", "the file: an array is not an object"),
    (b'{"listen":1}', f"listen: 1 {ADDRESS}"),
    (b'{"listen":"127.0.0.1:0","connections":0,"services":[{"name":"pay"}]}', "workers: the key is missing"),
    (b'{"listen":"127.0.0.1:0","workers":4,\n"connections":0,}', "line 2, column "),
    (b"\xef\xbb\xbf{}", "line 1, column 1: a byte order mark stands before the JSON"),
    (b'{"listen":"\xff"}', "line 1, column "),
]
