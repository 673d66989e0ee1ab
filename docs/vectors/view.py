"""What the views say of JSON texts, by Python's own JSON reader.

    python3 docs/vectors/view.py crates/view_run

writes `stdin` (the texts, a line of lowercase hex each) and `stdout` (what must be printed) there. Ends of values come from
json.JSONDecoder.raw_decode, strings from json.decoder.py_scanstring; this file only steps over white space, commas and
colons. Python counts characters and the views count bytes: `bytes_before` turns one into the other.
"""
import json
import sys
from json.decoder import py_scanstring

SPACE = " \t\n\r"
KEYS = ["type", "name", "namespace", "aliases", "fields", "symbols", "default", "size", "items", "values", "logicalType", "precision", "scale"]

TEXTS = [
    # words, numbers, white space of the four kinds around
    'null', 'true', 'false', ' null', 'null ', '\t\n\r true\r\n\t ', '0', '-0', '7', '12 ', '\n42', '-5', '1.5', '1e3', '1E+3', '2.5e-7', '-0.0',
    '18446744073709551615', '18446744073709551616', '18446744073709551614', '99999999999999999999', '18446744073709551620', '1844674407370955161',
    '184467440737095516150', '9999999999999999999', '[18446744073709551615,18446744073709551616,0]',
    # strings
    '""', '"a"', '"record"', '"recor"', '"records"', '"\\u0072ecord"', '"\\u0072\\u0065\\u0063\\u006f\\u0072\\u0064"', '"rec\\u006Frd"',
    '"\\""', '"\\\\"', '"\\\\\\""', '"a\\\\"', '"\\/\\b\\f\\n\\r\\t"', '"/"', '"\\u0000"', '"\\u007f\\u0080\\u07ff\\u0800\\uffff"',
    '"\\ud83d\\ude00"', '"\\uD800\\uDC00"', '"\\udbff\\udfff"', '"x\\ud834\\udd1ey"', '"\\ud7ff\\ue000"', '"\u00e9"', '"\\u00e9"', '"\u20ac\U0001f600"',
    '"[{]}"', '"{\\"a\\":[1]}"', '"fifteen bytes.."', '"sixteen bytes..."', '"seventeen bytes.."', '"\u00e9\u00e9\u00e9\u00e9\u00e9\u00e9\u00e9\u00e9x"',
    '"0123456789012345678901234567890123456789"', '"abcdefghijklmn\\u20ac"',
    # arrays
    '[]', '[ ]', '[\t\n\r ]', '[1]', '[ 1 , 2\t,\n3\r]', '[[]]', '[[],[[]],[[[]]]]', '["]"]', '["[", "]", "\\"]", "\\\\"]', '[{},{"a":[]},[{}]]',
    '["a","a","b","\\u0061","aa",""]', '["\u00e9","\\u00e9","\\u00c3\\u00a9","e\u0301"]', '["\\ud83d\\ude00","\U0001f600","\\ud83d\\ude01"]',
    '["\\n","\\u000a","n"]', '[null,true,false,-1,1.0,"x",[],{}]', '[1,"1",1]', '["ab","a","abc","ab"]', '[ "x" ,"x"\n,\t"x" ]',
    '["a\\\\","a\\\\\\\\","a\\\\"]', '[0, 12 ,345\t, 6789]', '[-1,1.5,1e2,0]',
    # objects
    '{}', '{ }', '{\n}', '{"type":"string"}', '{"name":"n","type":"record"}', ' { "type" : "int" } ', '{"type":1,"type":2}', '{"name":"a","x":0,"name":"b","name":"c"}',
    '{"n\\u0061me":"x"}', '{"name":"x","n\\u0061me":"y"}', '{"n\\u0061me":"y","name":"x"}', '{"\\u0074ype":"a","typ\\u0065":"b"}', '{"Name":1,"NAME":2,"nam":3,"names":4,"name ":5}',
    '{"":0}', '{"\\u0000":0,"t":1,"ty":2,"typ":3,"types":4}', '{"na\\u006de":1}', '{"a":{"name":1},"name":{"name":2}}', '{"type":{"type":{"type":"int"}}}',
    '{"type":"fixed","name":"f","size":16,"logicalType":"decimal","precision":38,"scale":2}',
    '{"type":"enum","name":"e","symbols":["A","B","\\u0041"],"default":"A","aliases":["x","y"],"namespace":"a.b"}',
    '{"type":"record","name":"R","namespace":"a","fields":[{"name":"x","type":"int"},{"name":"next","type":["null","R"]}]}',
    '{"items":[],"values":{},"size":0,"scale":1,"symbols":[]}', '{"namespace":"n","name":"m"}', '{"logicaltype":1,"logicalType":2}',
    '{"size":18446744073709551615,"precision":18446744073709551616,"scale":-1}', '{"size" : 12 ,"precision":1.0,"scale":1e1}',
    '{"k]":"}","k{":"[\\"]","type":"\\"}"}', '{"x\\"name":1,"name\\"":2,"\\\\name":3,"name":4}', '{"a":"\\\\","name":"\\\\\\""}',
    '{"type"\t:\n"t"\r,\t"name"\n:\r"n"}', '{"\\u0073\\u0069\\u007a\\u0065":3,"s\\u0063ale":4,"symbol\\u0073":[5]}',
    '{"default":null,"default":false,"default":true}', '{"prec\\u0069sion":9,"\\u0070recision":10}', '{"aliases":"a","fields":"f","items":"i","values":"v"}',
    '{"\u00e9":1,"\\u00e9":2,"type":"\u00e9"}', '{"size":"12","size":[12],"size":12}', '{"name":"' + 'x' * 300 + '"}',
]


def reader(text):
    decoder = json.JSONDecoder()

    def bytes_before(i):
        return len(text[:i].encode())

    def skip(i):
        while i < len(text) and text[i] in SPACE:
            i += 1
        return i

    def value(i):
        return decoder.raw_decode(text, i)

    def elements(i):
        found, i = [], skip(i + 1)
        while text[i] != "]":
            found.append(i)
            i = skip(value(i)[1])
            if text[i] == ",":
                i = skip(i + 1)
        return found

    def members(i):
        found, i = {}, skip(i + 1)
        while text[i] != "}":
            key, i = py_scanstring(text, i + 1)
            i = skip(i)
            assert text[i] == ":"
            i = skip(i + 1)
            found[key] = i
            i = skip(value(i)[1])
            if text[i] == ",":
                i = skip(i + 1)
        return found

    def content(i):
        v = value(i)[0]
        return v.encode() if isinstance(v, str) else b""

    def line(i):
        v, end = value(i)
        words = [bytes_before(i), bytes_before(end)]
        if isinstance(v, str):
            b = v.encode()
            words += ["string", len(b), b[:16].hex(), "yes" if v == "record" else "no"]
        elif isinstance(v, dict):
            m = members(i)
            assert set(m) == set(v)
            words += ["object"] + [bytes_before(m[k]) if k in m else "-" for k in KEYS]
        elif isinstance(v, list):
            found = elements(i)
            assert len(found) == len(v)
            words += ["array"]
            for p in found:
                words += [bytes_before(p), "yes" if content(p) == content(found[0]) else "no"]
        elif v is None or isinstance(v, bool):
            words += ["word"]
        else:
            literal = text[i:end]
            words += ["number", literal if literal.isdigit() and int(literal) < 2**64 else "-"]
        return " " + " ".join(str(w) for w in words)

    start = skip(0)
    out, v = [line(start)], value(start)[0]
    assert skip(value(start)[1]) == len(text)
    if isinstance(v, list):
        out += [" " + line(p) for p in elements(start)]
    if isinstance(v, dict):
        m = members(start)
        out += [" " + line(m[k]) for k in KEYS if k in m]
    return out


def main(folder):
    assert len(TEXTS) >= 80 and all(len(t.encode()) <= 1024 for t in TEXTS)
    with open(folder + "/stdin", "w") as f:
        f.write("".join(t.encode().hex() + "\n" for t in TEXTS))
    with open(folder + "/stdout", "w") as f:
        for t in TEXTS:
            f.write("".join(l + "\n" for l in reader(t)))


main(sys.argv[1])
