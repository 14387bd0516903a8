#!/usr/bin/env python3
"""Makes the sample journal, samples/journal.cp932, and the ledger that it must give, samples/ledger.utf16le.

    make_journal.py [--check]

The text of the receipts is in this file. The journal's bytes are made by Python's codec cp932; the ledger is what Java's
charset windows-31j decodes from these bytes. Neither is made by tillbox. With --check nothing is written: the stored files
are compared with what would be.
"""

import argparse
import os
import subprocess
import sys
import tempfile

ROOT = os.path.dirname(os.path.dirname(os.path.abspath(__file__)))
SAMPLES = os.path.join(ROOT, "samples")

SHOPS = ["駅前本店", "港町支店", "空港売店"]
CLERKS = ["高橋", "佐藤", "鈴木", "渡辺"]
GOODS = [
    ("緑茶", "ｵﾁｬ", 120),
    ("弁当（鮭）", "ﾍﾞﾝﾄｳ", 480),
    ("おにぎり　昆布", "ｵﾆｷﾞﾘ", 130),
    ("新聞", "ｼﾝﾌﾞﾝ", 150),
    ("ソーセージ", "ｿｰｾｰｼﾞ", 210),
    ("表示価格の十円引き", "ﾜﾘﾋﾞｷ", -10),
    ("電池　単三×４", "ﾃﾞﾝﾁ", 398),
    ("能登の塩", "ｼｵ", 265),
    ("切手　８４円", "ｷｯﾃ", 84),
    ("①番くじ", "ｸｼﾞ", 300),
]

JAVA = """
import java.io.*; import java.nio.charset.*;
public class Ledger {
    public static void main(String[] a) throws Exception {
        byte[] in = System.in.readAllBytes();
        OutputStream out = System.out;
        out.write(new String(in, Charset.forName("windows-31j")).getBytes("UTF-16LE"));
        out.flush();
    }
}
"""


def receipt(number):
    """One receipt, as the till prints it."""
    shop = SHOPS[number % len(SHOPS)]
    clerk = CLERKS[number % len(CLERKS)]
    lines = [f"★{shop}　№{number:04}", f"２０２６年１１月{number % 28 + 1:02}日 {9 + number % 12:02}:{number * 7 % 60:02}　担当 {clerk}"]
    total = 0
    for place in range(3 + number % 4):
        name, kana, price = GOODS[(number * 3 + place) % len(GOODS)]
        count = 1 + (number + place) % 3
        total += count * price
        lines.append(f" {name}（{kana}） {count}点 \\{count * price}")
    lines.append(f"合計　\\{total}　お預り　\\{(total // 1000 + 1) * 1000}")
    lines.append("～～～")
    return "".join(line + "\r\n" for line in lines)


def journal_text():
    return "".join(receipt(number) for number in range(1, 13)) + "本日もありがとうございました。\r\n"


def java_ledger(journal):
    with tempfile.TemporaryDirectory() as folder:
        path = os.path.join(folder, "Ledger.java")
        with open(path, "w") as file:
            file.write(JAVA)
        return subprocess.run(["java", path], input=journal, stdout=subprocess.PIPE, check=True).stdout


def main():
    parser = argparse.ArgumentParser(description=__doc__.splitlines()[0])
    parser.add_argument("--check", action="store_true")
    check = parser.parse_args().check
    journal = journal_text().encode("cp932")
    ledger = java_ledger(journal)
    same = True
    for name, content in (("journal.cp932", journal), ("ledger.utf16le", ledger)):
        path = os.path.join(SAMPLES, name)
        if check:
            with open(path, "rb") as file:
                if file.read() != content:
                    print(f"{name} differs")
                    same = False
            continue
        os.makedirs(SAMPLES, exist_ok=True)
        with open(path, "wb") as file:
            file.write(content)
        print(f"{name}: {len(content)} bytes")
    if check:
        print("the samples are as they would be made" if same else "the samples differ")
    sys.exit(0 if same else 1)


if __name__ == "__main__":
    main()
