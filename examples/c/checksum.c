/* The checksum of the Internet protocols: the sum of 16-bit words in one's complement. */
typedef unsigned char u8;
typedef unsigned short u16;
typedef unsigned int u32;

static const u8 packet[] = "\x45\x00\x00\x3c\x1c\x46\x40\x00\x40\x06\x00\x00\xac\x10\x0a\x63\xac\x10\x0a\x0c";

static u32 folded(u32 sum)
{
    while (sum >> 16)
        sum = (sum & 0xffff) + (sum >> 16);
    return sum;
}

u16 checksum(const u8 *bytes, u32 length)
{
    u32 sum = 0;
    for (u32 i = 0; i + 1 < length; i += 2)
        sum = folded(sum + ((u32)bytes[i] << 8 | bytes[i + 1]));
    if (length & 1)
        sum = folded(sum + ((u32)bytes[length - 1] << 8));
    return (u16)~sum;
}

int checksum_of_packet(void) { return checksum(packet, 20); }
