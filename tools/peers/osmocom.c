/* What `mtpbank units` prints of a line, around libosmocore's decoder osmo_isdnhdlc_decode, for comparison alone
 * (tools/bench --all, where its development package is installed).
 *
 * It reads hexadecimal digits by pieces of 4,096, and prints a line for each unit, and `bad` where the decoder tells a
 * fault. The decoder has no octet counting, so of a damaged line it tells other faults than `units` does. */
#include <stdio.h>
#include <stdint.h>
#include <osmocom/core/isdnhdlc.h>

static const char digits[] = "0123456789abcdef";
static char out[1 << 16];
static size_t held;

static void put(const char *text)
{
    while (*text)
        out[held++] = *text++;
}

static void put_number(unsigned value)
{
    if (value >= 10)
        put_number(value / 10);
    out[held++] = digits[value % 10];
}

static void put_unit(const uint8_t *unit, int len)
{
    static const char *const kinds[] = {"good fisu bsn=", "good lssu bsn=", "good lssu bsn="};
    int body = len - 3;
    if (body < 0 || (unit[2] & 63) != (body < 63 ? body : 63)) {
        put("good fault=3\n");
        return;
    }
    put(body < 3 ? kinds[body] : "good msu bsn=");
    put_number(unit[0] & 127);
    put(unit[0] >> 7 ? " bib=1 fsn=" : " bib=0 fsn=");
    put_number(unit[1] & 127);
    put(unit[1] >> 7 ? " fib=1" : " fib=0");
    if (body == 1 || body == 2) {
        put(" status=");
        put_number(unit[3] & 7);
    } else if (body) {
        put(" body=");
        for (int at = 3; at < len; at++) {
            out[held++] = digits[unit[at] >> 4];
            out[held++] = digits[unit[at] & 15];
        }
    }
    out[held++] = '\n';
}

static int value_of(int digit)
{
    return digit <= '9' ? digit - '0' : (digit | 32) - 'a' + 10;
}

int main(void)
{
    static struct osmo_isdnhdlc_vars hdlc;
    static uint8_t in[4096], octets[2048], unit[400];
    unsigned long good = 0, bad = 0;
    size_t n;
    osmo_isdnhdlc_rcv_init(&hdlc, 0);
    while ((n = fread(in, 1, sizeof in, stdin)) > 0) {
        for (size_t at = 0; at < n / 2; at++)
            octets[at] = value_of(in[2 * at]) << 4 | value_of(in[2 * at + 1]);
        for (size_t at = 0; at < n / 2;) {
            int taken = 0;
            int len = osmo_isdnhdlc_decode(&hdlc, octets + at, (int)(n / 2 - at), &taken, unit, sizeof unit);
            if (len > 0) {
                good++;
                put_unit(unit, len);
            } else if (len < 0) {
                bad++;
                put("bad\n");
            }
            at += taken;
            if (held > sizeof out / 2) {
                fwrite(out, 1, held, stdout);
                held = 0;
            }
        }
    }
    fwrite(out, 1, held, stdout);
    printf("end good=%lu bad=%lu sixteen=0\n", good, bad);
}
