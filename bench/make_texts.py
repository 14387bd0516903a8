#!/usr/bin/env python3
"""Makes the benchmark's texts in a folder: NAME.bytes (for decoding) and NAME.units (UTF-16LE, for encoding).

Each has about 1 MiB of bytes and comes from a fixed seed, so that every run measures the same texts. The text `emoji` is for
encoding only: its page has none.
"""
import random
import struct
import sys

SIZE = 1 << 20

ENGLISH = """the till journal shows a sale of two items paid in cash and one void line entered by the cashier before the
drawer was closed receipt number total change given card payment approved refund for returned goods store manager open
report day end shift tax included subtotal discount member points balance thank you for shopping please keep this
receipt""".split()

JAPANESE = """領収書 合計 小計 現金 お釣り 消費税 税込 税抜 値引 返品 取消 点数 担当者 店舗 東京都 大阪府 株式会社 電話番号 毎度
ありがとうございます またのご来店をお待ちしております 食料品 日用品 牛乳 食パン 緑茶 おにぎり コーヒー チョコレート ビール 割引
レシート クレジット カード ポイント 会員 番号 売上 日計 精算 釣銭 準備金 開店 閉店 午前 午後 年 月 日 時 分 円 個 本 枚 袋
野菜 果物 鮮魚 精肉 惣菜 冷凍食品 文房具 雑誌 新聞 切手 送料 宅配便 領収致しました 上記正に 但し 御中 様 内訳 軽減税率 対象 商品""".split()

LATIN = """le café crème été payé à la caisse déjà reçu où garçon fenêtre hôtel naïf Noël français très après forêt
der Käse kostet fünf Euro für das Mädchen Straße grüßen schön Öl Äpfel über München Rückgeld Größe zurück
el niño señor mañana teléfono número corazón días año España así qué más información dirección artículo
total ticket le prix la monnaie carte client merci pour votre visite bonjour article remise montant facture
der Betrag Karte bar Kunde danke bitte Rechnung Summe Datum Artikel Rabatt und die Kasse heute
el precio la tarjeta cliente gracias por su visita fecha importe descuento cambio en efectivo""".split()


def ascii_line(r):
    if r.randrange(4) == 0:
        return '%06d\t%02d:%02d\t%s\t%d.%02d\n' % (
            r.randrange(1000000), r.randrange(24), r.randrange(60), r.choice(ENGLISH).upper(), r.randrange(200), r.randrange(100))
    return ' '.join(r.choice(ENGLISH) for _ in range(r.randrange(5, 14))) + '.\n'


def japanese_line(r):
    if r.randrange(4) == 0:
        return '%s %d点 %d円\n' % (r.choice(JAPANESE), r.randrange(1, 20), r.randrange(10, 20000))
    return ''.join(r.choice(JAPANESE) for _ in range(r.randrange(3, 9))) + '。\n'


def latin_line(r):
    line = ' '.join(r.choice(LATIN) for _ in range(r.randrange(5, 14)))
    if r.randrange(5) == 0:
        line += ' %d,%02d €' % (r.randrange(200), r.randrange(100))
    return line + '\n'


SHOPS = '港町支店 駅前店 本店 空港売店 中央市場店'.split()

CLERKS = '佐藤 鈴木 高橋 田中 伊藤 渡辺 山本 中村 小林 加藤'.split()


# Names as tills print them, in half-width kana; a voiced sound is two characters.
KANA_CLERKS = 'ｻﾄｳ ｽｽﾞｷ ﾀｶﾊｼ ﾀﾅｶ ｲﾄｳ ﾜﾀﾅﾍﾞ ﾔﾏﾓﾄ ﾅｶﾑﾗ ｺﾊﾞﾔｼ ｶﾄｳ'.split()

KANA_ARTICLES = """ｷﾞｭｳﾆｭｳ ｼｮｸﾊﾟﾝ ﾘｮｸﾁｬ ｵﾆｷﾞﾘ ｺｰﾋｰ ﾁｮｺﾚｰﾄ ﾋﾞｰﾙ ﾀﾏｺﾞ ﾄｳﾌ ﾅｯﾄｳ ﾊﾞﾅﾅ ﾘﾝｺﾞ ﾆﾝｼﾞﾝ ｷｬﾍﾞﾂ ﾀﾏﾈｷﾞ ｼｮｳﾕ ﾐｿ ｻﾄｳ ｼｵ ﾊﾞﾀｰ ﾖｰｸﾞﾙﾄ
ｱｲｽｸﾘｰﾑ ｶｯﾌﾟﾒﾝ ﾃｨｯｼｭ ｾﾝｻﾞｲ ｼｬﾝﾌﾟｰ ﾃﾞﾝﾁ ﾎﾞｰﾙﾍﾟﾝ ﾉｰﾄ ｷｯﾃ ｼﾝﾌﾞﾝ ﾚｼﾞﾌﾞｸﾛ""".split()


def journal_line(r):
    """A till's journal, a sold article a record: time, shop, receipt, clerk, article, number, price, and a remark that is mostly empty.
    Clerks and articles are half-width kana; shops and remarks have kanji."""
    article = ' '.join(r.choice(KANA_ARTICLES) for _ in range(r.randrange(1, 3)))
    remark = ''.join(r.choice(JAPANESE) for _ in range(3)) if r.randrange(8) == 0 else ''
    return '2026-11-%02d %02d:%02d:%02d|%s|No.%06d|%s|%s|%d点|%d円|%s\n' % (
        r.randrange(1, 31), r.randrange(24), r.randrange(60), r.randrange(60), r.choice(SHOPS), r.randrange(1000000), r.choice(KANA_CLERKS), article,
        r.randrange(1, 20), r.randrange(10, 20000), remark)


def kana_line(r):
    """Half-width kana alone: names of articles with spaces between them."""
    return ' '.join(r.choice(KANA_ARTICLES) for _ in range(r.randrange(3, 9))) + '\n'


EMOJI = '\U0001f375 \U0001f363 \U0001f338 \U0001f600 \U0001f389 \U0001f370 \U0001f41f \U0001f96c'.split()


def emoji_line(r):
    """A receipt's line: shop, number, article, number of pieces, price. Every third shop has emoji about its name."""
    shop = r.choice(SHOPS)
    if r.randrange(3) == 0:
        shop = r.choice(EMOJI) + shop + r.choice(EMOJI)
    return '%s No.%06d %s %d点 %d円\n' % (
        shop, r.randrange(1000000), r.choice(JAPANESE), r.randrange(1, 20), r.randrange(10, 20000))


# The pages that have no other text: what stands between words (Chinese has no spaces), and goods and words of receipts.
OTHERS = {
    'chinese': ('cp936', '', """小票 合计 现金 找零 谢谢惠顾 欢迎光临 商品 数量 单价 金额 会员 积分 牛奶 面包 绿茶 咖啡 啤酒 鸡蛋 苹果 香蕉 西红柿 酱油 食盐 白糖
黄油 酸奶 冰淇淋 洗发水 电池 报纸 邮票 退货 折扣 收银员 北京市 上海市 有限公司 电话 地址 日期 时间 优惠券 余额"""),
    'korean': ('cp949', ' ', """영수증 합계 현금 거스름돈 감사합니다 어서오세요 상품 수량 단가 금액 회원 포인트 우유 식빵 녹차 커피 맥주 달걀 사과 바나나 토마토 간장 소금
설탕 버터 요구르트 아이스크림 샴푸 건전지 신문 우표 반품 할인 담당자 서울특별시 부산광역시 주식회사 전화 주소 날짜 시간 쿠폰 잔액"""),
    'taiwan': ('cp950', '', """發票 合計 現金 找零 謝謝惠顧 歡迎光臨 商品 數量 單價 金額 會員 點數 牛奶 麵包 綠茶 咖啡 啤酒 雞蛋 蘋果 香蕉 番茄 醬油 食鹽 白糖
奶油 優酪乳 冰淇淋 洗髮精 電池 報紙 郵票 退貨 折扣 收銀員 臺北市 高雄市 有限公司 電話 地址 日期 時間 優惠券 餘額"""),
    'thai': ('cp874', ' ', """ใบเสร็จ รวม เงินสด เงินทอน ขอบคุณ ยินดีต้อนรับ สินค้า จำนวน ราคา สมาชิก คะแนน นม ขนมปัง ชาเขียว กาแฟ เบียร์ ไข่ แอปเปิล กล้วย มะเขือเทศ
ซีอิ๊ว เกลือ น้ำตาล เนย โยเกิร์ต ไอศกรีม แชมพู ถ่านไฟฉาย หนังสือพิมพ์ แสตมป์ คืนสินค้า ส่วนลด พนักงาน กรุงเทพ เชียงใหม่ บริษัท โทรศัพท์ ที่อยู่ วันที่ เวลา"""),
    'western': ('cp850', ' ', """quittung käse brötchen müsli kaffee größe rückgeld straße über für café crème pâté gâteau très déjà reçu número señor mañana teléfono
artículo açúcar pão maçã leite manhã não preço ændring smørrebrød øl rødvin grød åben lägg smör mjölk ägg fläsk öppet kött"""),
    'dos': ('cp437', ' ', """receipt cash total change café crème brûlée señor niño año jalapeño naïve façade über müsli käse öl größe straße ångström £5 ½ ¼ 20°
subtotal coffee bread milk butter cheese apples bananas tomatoes sugar salt tea beer eggs soap battery paper stamps"""),
}


def other_line(between, words):
    """The lines of such a text: words, and every fourth line an article with its number and price."""
    words = words.split()

    def line(r):
        if r.randrange(4) == 0:
            return '%s %d x %d.%02d\n' % (r.choice(words), r.randrange(1, 20), r.randrange(200), r.randrange(100))
        return between.join(r.choice(words) for _ in range(r.randrange(3, 9))) + '\n'

    return line


def figures_line(r):
    """A journal of figures alone, with short fields: number, time, article number, number, price."""
    return '%06d|%02d:%02d|%d|%d|%d\n' % (
        r.randrange(1000000), r.randrange(24), r.randrange(60), r.randrange(10000), r.randrange(1, 20), r.randrange(10, 20000))


def notes_line(r):
    """A journal of few, long fields: English sentences of up to 250 units."""
    return '|'.join(' '.join(r.choice(ENGLISH) for _ in range(40))[:r.randrange(40, 250)] for _ in range(3)) + '\n'


COMPANIES = '㈱佐藤商店 髙橋酒店 山﨑製菓 鈴木青果 ㈱港町水産 田中文具 髙田米店 宮﨑書店 ﾔﾏﾓﾄ薬局 ｶﾄｳ電器'.split()

# Three characters that page 932 has two codes for: the character's own, and the one that another till writes.
TWO_CODES = {'㈱': (b'\x87\x8a', b'\xfa\x58'), '髙': (b'\xfb\xfc', b'\xee\xe0'), '﨑': (b'\xfa\xb1', b'\xed\x95')}


def names_line(r):
    """A list of customers: number, firm, clerk, telephone."""
    return '%05d\t%s\t%s\t0%d-%04d-%04d\n' % (
        r.randrange(100000), r.choice(COMPANIES), r.choice(CLERKS), r.randrange(3, 10), r.randrange(10000), r.randrange(10000))


def names_text(r):
    """The list as bytes of page 932, every third line from another till."""
    lines = text_of(names_line, r, 'cp932').splitlines(True)
    return b''.join(TWO_CODES[c][i % 3 == 0] if c in TWO_CODES else c.encode('cp932') for i, line in enumerate(lines) for c in line)


def text_of(line, r, page):
    """Lines until they have SIZE bytes on the page; a character that it has not counts one."""
    lines = []
    size = 0
    while size < SIZE:
        lines.append(line(r))
        size += len(lines[-1].encode(page, 'replace'))
    return ''.join(lines)


def main():
    folder = sys.argv[1]

    def write(name, content):
        with open('%s/%s' % (folder, name), 'wb') as f:
            f.write(content)

    for name, line, page in (('ascii', ascii_line, 'cp932'), ('japanese', japanese_line, 'cp932'), ('latin', latin_line, 'cp1252'),
                             ('journal', journal_line, 'cp932'), ('kana', kana_line, 'cp932'), ('figures', figures_line, 'cp932'),
                             ('notes', notes_line, 'cp932'),
                             *((name, other_line(between, words), page) for name, (page, between, words) in OTHERS.items())):
        text = text_of(line, random.Random('till ' + name), page)
        write(name + '.bytes', text.encode(page))
        write(name + '.units', text.encode('utf-16-le'))
    write('names.bytes', names_text(random.Random('till names')))
    write('emoji.units', text_of(emoji_line, random.Random('till emoji'), 'cp932').encode('utf-16-le'))
    r = random.Random('till damaged')
    write('damaged.bytes', bytes(r.randrange(256) for _ in range(SIZE)))
    write('damaged.units', struct.pack('<%dH' % (SIZE // 2), *(r.randrange(65536) for _ in range(SIZE // 2))))


main()
