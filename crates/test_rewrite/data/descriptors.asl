// A definition block with each descriptor of resources that a constructor writes (ACPI 6.5, 6.4), except CSI-2 connections and
// clock inputs, which are newer than the compiler. descriptors.aml is what ACPICA's iasl made of it, with
// `iasl -on -p descriptors descriptors.asl`. src/descriptors.rt writes the same.
DefinitionBlock ("", "SSDT", 2, "FOOBAR", "CAFEDEAD", 0x00000002)
{
    Name (SMAL, ResourceTemplate ()
    {
        IRQ (Edge, ActiveLow, SharedAndWake) {3, 15}
        IRQ (Level, ActiveHigh, Exclusive) {0}
        IRQNoFlags () {1, 9}
        DMA (Compatibility, BusMaster, Transfer8) {2}
        DMA (TypeF, NotBusMaster, Transfer16) {0, 7}
        DMA (TypeA, NotBusMaster, Transfer8_16) {1}
        DMA (TypeB, BusMaster, Transfer16) {3}
        StartDependentFn (0, 2)
        {
            IO (Decode16, 0x03f8, 0x0400, 0x08, 0x07)
        }
        StartDependentFn (1, 0)
        {
            IO (Decode10, 0x02f8, 0x02f8, 0x01, 0x08)
        }
        EndDependentFn ()
        StartDependentFnNoPri ()
        {
            FixedIO (0x0070, 0x02)
        }
        EndDependentFn ()
        FixedDMA (0x1234, 0x0005, Width32bit)
        FixedDMA (0x0001, 0x0002, Width256bit)
        VendorShort () {0x01, 0x02, 0x03}
    })
    Name (LONG, ResourceTemplate ()
    {
        Memory24 (ReadOnly, 0x0010, 0x0020, 0x0100, 0x0008)
        Memory24 (ReadWrite, 0x1010, 0x2020, 0x0200, 0x1008)
        Memory32 (ReadWrite, 0x10000000, 0x20000000, 0x00001000, 0x00100000)
        Memory32Fixed (ReadOnly, 0xfed00000, 0x00000400)
        Memory32Fixed (ReadWrite, 0xe0000000, 0x10000000)
        VendorLong () {0x0a, 0x0b, 0x0c, 0x0d, 0x0e, 0x0f, 0x10, 0x11, 0x12}
        Register (SystemIO, 0x08, 0x00, 0x0000000000001234, 0x01)
        Register (FFixedHW, 0x40, 0x04, 0x8000000000000010, 0x04)
    })
    Name (SPAC, ResourceTemplate ()
    {
        WordBusNumber (ResourceProducer, MinFixed, MaxFixed, PosDecode, 0x0000, 0x0001, 0x00ff, 0x0000, 0x00ff)
        WordIO (ResourceProducer, MinFixed, MaxFixed, PosDecode, EntireRange, 0x0000, 0x0d00, 0xffff, 0x0010, 0xf300)
        DWordIO (ResourceProducer, MinFixed, MaxFixed, SubDecode, EntireRange, 0x00000000, 0x00000000, 0x00000cf7, 0x00000000,
            0x00000cf8)
        DWordMemory (ResourceProducer, PosDecode, MinFixed, MaxFixed, NonCacheable, ReadOnly, 0x00000000, 0xc0000000, 0xfebfffff,
            0x00000000, 0x3ec00000)
        DWordMemory (ResourceProducer, PosDecode, MinNotFixed, MaxNotFixed, WriteCombining, ReadWrite, 0x00000fff, 0x80000000,
            0xbfffffff, 0x00000000, 0x00010000)
        QWordMemory (ResourceProducer, PosDecode, MinFixed, MaxNotFixed, Cacheable, ReadWrite, 0x00000000000fffff,
            0x0000000800000000, 0x0000000fffffffff, 0x0000000000000000, 0x0000000000000000)
        QWordMemory (ResourceProducer, PosDecode, MinNotFixed, MaxFixed, Prefetchable, ReadOnly, 0x00000000000fffff,
            0x0000001000000000, 0x0000001fffffffff, 0x0000000000000000, 0x0000000000000000)
        QWordIO (ResourceProducer, MinFixed, MaxFixed, PosDecode, EntireRange, 0x0000000000000000, 0x0000000000001000,
            0x0000000000001fff, 0x0000000100000000, 0x0000000000001000)
        DWordMemory (ResourceProducer, PosDecode, MinFixed, MaxFixed, Cacheable, ReadWrite, 0x00000000, 0xd0000000, 0xd000ffff,
            0x00000000, 0x00010000, 0x03, "\\_SB.PCI0")
    })
    Name (INTR, ResourceTemplate ()
    {
        Interrupt (ResourceConsumer, Edge, ActiveHigh, Exclusive) {0x00000021}
        Interrupt (ResourceProducer, Level, ActiveLow, SharedAndWake) {0x00000102}
        Interrupt (ResourceConsumer, Level, ActiveLow, Shared) {0x00000010, 0x00000011, 0x00000012}
        Interrupt (ResourceConsumer, Level, ActiveLow, Shared, 0x02, "\\_SB.LNKA") {0x00000005}
    })
    Name (PINS, ResourceTemplate ()
    {
        GpioInt (Edge, ActiveBoth, SharedAndWake, PullUp, 0x1234, "\\_SB.GPI0", 0x00, ResourceConsumer, , ) {0x0203}
        GpioInt (Level, ActiveLow, Exclusive, PullNone, 0x0000, "\\_SB.GPI0", 0x00, ResourceProducer, ,
            RawDataBuffer () {0x0a, 0x0b}) {0x0004}
        GpioIo (Shared, PullDown, 0x0005, 0x0678, IoRestrictionOutputOnly, "\\_SB.GPI0", 0x00, ResourceConsumer, , ) {0x0009}
        GpioIo (Exclusive, PullDefault, 0x0000, 0x0000, IoRestrictionNoneAndPreserve, "\\_SB.GPI0", 0x00, ResourceConsumer, ,
            RawDataBuffer () {0x0c}) {0x000a, 0x000b}
        PinFunction (Shared, PullUp, 0x0102, "\\_SB.GPI0", 0x00, ResourceConsumer, , RawDataBuffer () {0x01, 0x02}) {0x0003}
        PinConfig (Exclusive, 0x02, 0x00002710, "\\_SB.GPI0", 0x00, ResourceConsumer, , ) {0x0004, 0x0005}
        PinConfig (Shared, 0x80, 0x00000001, "\\_SB.GPI0", 0x00, ResourceProducer, , RawDataBuffer () {0x07}) {0x0006}
        PinGroup ("GRP0", ResourceProducer, , RawDataBuffer () {0x08}) {0x0007, 0x0008}
        PinGroupFunction (Shared, 0x0304, "\\_SB.GPI0", 0x00, "GRP0", ResourceConsumer, , RawDataBuffer () {0x09, 0x0a})
        PinGroupConfig (Exclusive, 0x0b, 0x00000032, "\\_SB.GPI0", 0x00, "GRP0", ResourceConsumer, , )
    })
    Name (BUSS, ResourceTemplate ()
    {
        I2cSerialBusV2 (0x0050, ControllerInitiated, 0x00061a80, AddressingMode7Bit, "\\_SB.I2C0", 0x00, ResourceConsumer, ,
            Exclusive, )
        I2cSerialBusV2 (0x0250, DeviceInitiated, 0x000186a0, AddressingMode10Bit, "\\_SB.I2C0", 0x00, ResourceConsumer, , Shared,
            RawDataBuffer () {0x01, 0x02})
        SpiSerialBusV2 (0x0001, PolarityHigh, ThreeWireMode, 0x10, ControllerInitiated, 0x00989680, ClockPolarityHigh,
            ClockPhaseSecond, "\\_SB.SPI0", 0x00, ResourceConsumer, , Exclusive, )
        UartSerialBusV2 (0x0001c200, DataBitsEight, StopBitsOne, 0xc0, LittleEndian, ParityTypeNone, FlowControlHardware, 0x0020,
            0x0010, "\\_SB.URT0", 0x00, ResourceConsumer, , Exclusive, )
        UartSerialBusV2 (0x00002580, DataBitsNine, StopBitsOnePlusHalf, 0xfc, BigEndian, ParityTypeSpace, FlowControlXON, 0x0001,
            0x0002, "\\_SB.URT0", 0x00, ResourceProducer, , Shared, RawDataBuffer () {0x03})
    })
}
