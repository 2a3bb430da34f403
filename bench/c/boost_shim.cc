// Boost's CRC library (Debian: libboost-dev), for C.
#include <boost/crc.hpp>
#include <cstddef>
#include <cstdint>

extern "C" std::uint16_t boost_check_sequence(const std::uint8_t *octets, std::size_t length)
{
    boost::crc_optimal<16, 0x1021, 0xFFFF, 0xFFFF, true, true> crc;
    crc.process_bytes(octets, length);
    return crc.checksum();
}
