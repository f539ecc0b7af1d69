/* Prints version, sizes and the layout of every struct as the C compiler has them; layout.txt says what they must be. */
#include "desk.h"

#include <stdio.h>

#define SIZE(name) printf(#name " %d\n", DESK_##name)
#define STRUCT(name) printf(#name " size %zu align %zu\n", sizeof(Desk##name), _Alignof(Desk##name))
#define FIELD(name, field) \
    printf(#name "." #field " at %zu size %zu\n", offsetof(Desk##name, field), sizeof(((Desk##name *)0)->field))

static void sizes(void) {
    SIZE(VERSION);
    SIZE(RECORD);
    SIZE(ENTRY);
    SIZE(IMAGE);
    SIZE(LONGEST_LIST);
    SIZE(NO_PLACE);
    SIZE(NO_BYTE);
    SIZE(WIDE_RECORD);
    SIZE(WIDE_ENTRY);
    SIZE(WIDE_IMAGE);
    SIZE(WIDE_LONGEST_LIST);
}

static void codes_and_words(void) {
    STRUCT(Code);
    FIELD(Code, columns);
    FIELD(Code, k);
    FIELD(Code, r);
    STRUCT(CheckBits);
    FIELD(CheckBits, number);
    FIELD(CheckBits, bits);
    STRUCT(Judgement);
    FIELD(Judgement, number);
    FIELD(Judgement, told);
    STRUCT(RowBalance);
    FIELD(RowBalance, number);
    FIELD(RowBalance, told);
    FIELD(RowBalance, rows);
    STRUCT(CheckWord);
    FIELD(CheckWord, number);
    FIELD(CheckWord, told);
    FIELD(CheckWord, check);
    STRUCT(ReadWord);
    FIELD(ReadWord, number);
    FIELD(ReadWord, told);
    FIELD(ReadWord, verdict);
    FIELD(ReadWord, place);
    FIELD(ReadWord, data);
    FIELD(ReadWord, check);
    FIELD(ReadWord, syndrome);
    STRUCT(Listing);
    FIELD(Listing, number);
    FIELD(Listing, told);
    FIELD(Listing, length);
    STRUCT(CardCheck);
    FIELD(CardCheck, number);
    FIELD(CardCheck, told);
    FIELD(CardCheck, card);
    FIELD(CardCheck, mask);
}

static void passes_and_sheets(void) {
    STRUCT(Tally);
    FIELD(Tally, clean);
    FIELD(Tally, data);
    FIELD(Tally, check);
    FIELD(Tally, even);
    FIELD(Tally, odd);
    FIELD(Tally, stray);
    STRUCT(PassAnswer);
    FIELD(PassAnswer, number);
    FIELD(PassAnswer, told);
    FIELD(PassAnswer, used);
    FIELD(PassAnswer, tally);
    STRUCT(PutBack);
    FIELD(PutBack, number);
    FIELD(PutBack, told);
    FIELD(PutBack, count);
    STRUCT(Sheet);
    FIELD(Sheet, device);
    FIELD(Sheet, station);
    FIELD(Sheet, share);
    STRUCT(SheetAnswer);
    FIELD(SheetAnswer, number);
    FIELD(SheetAnswer, told);
    FIELD(SheetAnswer, yes);
    FIELD(SheetAnswer, sheet);
    STRUCT(Made);
    FIELD(Made, number);
    FIELD(Made, code);
}

static void bytes_and_bad_places(void) {
    STRUCT(ByteNumber);
    STRUCT(ByteWriting);
    FIELD(ByteWriting, number);
    FIELD(ByteWriting, told);
    FIELD(ByteWriting, word);
    STRUCT(ByteReading);
    FIELD(ByteReading, number);
    FIELD(ByteReading, told);
    FIELD(ByteReading, verdict);
    FIELD(ByteReading, byte);
    FIELD(ByteReading, word);
    STRUCT(Recovered);
    FIELD(Recovered, number);
    FIELD(Recovered, told);
    FIELD(Recovered, data);
    FIELD(Recovered, check);
    STRUCT(BadPlaces);
    FIELD(BadPlaces, number);
    FIELD(BadPlaces, told);
    FIELD(BadPlaces, data);
    FIELD(BadPlaces, check);
}

static void wide(void) {
    STRUCT(WideCode);
    FIELD(WideCode, columns);
    FIELD(WideCode, k);
    FIELD(WideCode, r);
    STRUCT(WideWord);
    FIELD(WideWord, low);
    FIELD(WideWord, high);
    FIELD(WideWord, check);
    STRUCT(WideReadWord);
    FIELD(WideReadWord, number);
    FIELD(WideReadWord, told);
    FIELD(WideReadWord, verdict);
    FIELD(WideReadWord, place);
    FIELD(WideReadWord, syndrome);
    FIELD(WideReadWord, word);
    STRUCT(WideMade);
    FIELD(WideMade, number);
    FIELD(WideMade, code);
    STRUCT(WideRecovered);
    FIELD(WideRecovered, number);
    FIELD(WideRecovered, told);
    FIELD(WideRecovered, word);
    STRUCT(WideBadPlaces);
    FIELD(WideBadPlaces, number);
    FIELD(WideBadPlaces, told);
    FIELD(WideBadPlaces, word);
}

static void with_rows(void) {
    STRUCT(RowCode);
    FIELD(RowCode, columns);
    FIELD(RowCode, n);
    FIELD(RowCode, r);
    FIELD(RowCode, rows);
    STRUCT(WideRowCode);
    FIELD(WideRowCode, columns);
    FIELD(WideRowCode, n);
    FIELD(WideRowCode, r);
    FIELD(WideRowCode, rows);
}

int main(void) {
    sizes();
    codes_and_words();
    passes_and_sheets();
    bytes_and_bad_places();
    wide();
    with_rows();
    return 0;
}
