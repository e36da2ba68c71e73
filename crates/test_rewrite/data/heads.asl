// A definition block with each head and each operator of AML that a constructor writes (ACPI 6.5, 20.2). heads.aml is what
// ACPICA's iasl made of it, with `iasl -on -p heads heads.asl`.
DefinitionBlock ("", "DSDT", 2, "FOOBAR", "CAFEDEAD", 0x00000001)
{
    External (\_SB.EXT0, DeviceObj)
    External (\_SB.EXT1, MethodObj)

    // Names and their values: numbers of each width, Ones, strings, buffers and packages.
    Name (NUM0, Zero)
    Name (NUM1, One)
    Name (NUM2, 0x12)
    Name (NUM3, 0x1234)
    Name (NUM4, 0x12345678)
    Name (NUM5, 0x0000000100000000)
    Name (NUM6, Ones)
    Name (TEXT, "ACPI 6.5")
    Name (BUF0, Buffer (4) { 1, 2, 3, 4 })
    Name (BUF1, Buffer (8) { 1, 2 })
    Name (BUF2, Buffer (0x40) {})
    Name (PAK0, Package (3) { 1, "A", Package () { NUM0, \NUM1 } })
    Name (PAK1, Package () {})
    Name (PAK2, Package (0x80) {})
    Name (PAK3, Package (4) { 1, Package (2) { NUM0 }, \NUM1 })
    Name (_HID, EisaId ("PNP0A08"))
    Name (UUID, ToUUID ("33db4d5b-1ff7-401c-9657-7441c03dd766"))
    Alias (NUM2, NUM7)

    // Mutexes, events, regions of each address space, and fields of each access.
    Mutex (MTX0, 0)
    Mutex (MTX1, 15)
    Event (EVT0)
    OperationRegion (REG0, SystemMemory, 0xfed00000, 0x1000)
    OperationRegion (REG1, SystemIO, 0x70, 0x08)
    OperationRegion (REG2, PCI_Config, 0x40, 0x04)
    OperationRegion (REG3, EmbeddedControl, 0x00, 0xff)
    OperationRegion (REG4, SMBus, 0x00, 0x100)
    OperationRegion (REG5, SystemCMOS, 0x00, 0x80)
    OperationRegion (REG6, PciBarTarget, 0x10, 0x20)
    OperationRegion (REG7, IPMI, 0x3000, 0x100)
    OperationRegion (REG8, GeneralPurposeIO, 0x00, 0x01)
    OperationRegion (REG9, GenericSerialBus, 0x00, 0x100)
    DataTableRegion (REGA, "OEM1", "", "")
    Field (REG0, AnyAcc, NoLock, Preserve) { FLD0, 1, , 7, FLD1, 62, Offset (0x20), FLD2, 4093 }
    Field (REG0, ByteAcc, Lock, WriteAsOnes) { FLD3, 8 }
    Field (REG0, WordAcc, NoLock, WriteAsZeros) { FLD4, 16 }
    Field (REG0, DWordAcc, Lock, Preserve) { FLD5, 32 }
    Field (REG0, QWordAcc, NoLock, Preserve) { FLD6, 64 }
    Field (REG4, BufferAcc, NoLock, Preserve) { FLD7, 8 }
    Field (REG1, ByteAcc, NoLock, Preserve) { INDX, 8, VALU, 8, BANK, 8 }
    IndexField (INDX, VALU, ByteAcc, NoLock, Preserve) { IDX0, 8, IDX1, 8 }
    BankField (REG1, BANK, 2, ByteAcc, Lock, WriteAsZeros) { BNK0, 8, , 8, BNK1, 16 }

    // Field lists that say how the fields after an entry are accessed, and by which connection.
    Name (BUS0, ResourceTemplate () { I2CSerialBusV2 (0x12, ControllerInitiated, 400000, AddressingMode7Bit, "\\_SB.I2C0") })
    Field (REG9, BufferAcc, NoLock, Preserve)
    {
        Connection (BUS0),
        AccessAs (BufferAcc, AttribWord),
        FLD8, 8,
        AccessAs (BufferAcc, AttribBytes (16)),
        , 8,
        Connection (I2CSerialBusV2 (0x5b, ControllerInitiated, 400000, AddressingMode7Bit, "\\_SB.I2C0")),
        FLD9, 8
    }
    IndexField (INDX, VALU, ByteAcc, NoLock, Preserve) { AccessAs (ByteAcc, AttribQuick), IDX2, 8 }
    BankField (REG1, BANK, 3, ByteAcc, NoLock, Preserve) { BNK2, 8, AccessAs (ByteAcc, AttribByte), BNK3, 8 }

    // Frames around lists.
    PowerResource (PWR0, 4, 0x0102)
    {
        Method (_STA) { Return (One) }
    }
    ThermalZone (THRM)
    {
        Method (_TMP) { Return (3000) }
    }
    Scope (\)
    {
        Name (NUMC, Zero)
    }
    Scope (\_SB)
    {
        Device (PCI0)
        {
            Name (_ADR, Zero)
            Processor (CPU0, 0x01, 0x00000410, 0x06) {}
            Device (DEV0)
            {
                Name (_UID, "D")
                Name (_STA, 0x0f)

                // Names after ^, and ^ and the root alone.
                Name (^NUM8, Package () { ^NUM9, \NUM0 })
                Device (^DEV1)
                {
                    Name (_ADR, One)
                    Method (^DEV0.MTH8, 1) { Return (^^NUM8) }
                }
                Method (MTH9)
                {
                    Store (^MTH8 (^^NUM9), ^^DEV1._ADR)
                    Notify (^^^PCI0, 0x81)
                    Notify (^, 0x82)
                    Store (RefOf (\), Local0)
                }
                Scope (^)
                {
                    Name (NUMA, Zero)
                }
                Scope (^^)
                {
                    Name (NUMB, One)
                }
            }
            Name (NUM9, One)
        }
    }
    Scope (\_SB.PCI0.DEV0)
    {
        Name (_CID, "PNP0C02")
    }
    Scope (\_SB.PCI0)
    {
        // Lengths of two bytes.
        Name (LONG, Buffer ()
        {
            0x00, 0x01, 0x02, 0x03, 0x04, 0x05, 0x06, 0x07, 0x08, 0x09, 0x0a, 0x0b, 0x0c, 0x0d, 0x0e, 0x0f,
            0x10, 0x11, 0x12, 0x13, 0x14, 0x15, 0x16, 0x17, 0x18, 0x19, 0x1a, 0x1b, 0x1c, 0x1d, 0x1e, 0x1f,
            0x20, 0x21, 0x22, 0x23, 0x24, 0x25, 0x26, 0x27, 0x28, 0x29, 0x2a, 0x2b, 0x2c, 0x2d, 0x2e, 0x2f,
            0x30, 0x31, 0x32, 0x33, 0x34, 0x35, 0x36, 0x37, 0x38, 0x39, 0x3a, 0x3b, 0x3c, 0x3d, 0x3e, 0x3f
        })
    }

    // Methods with each number of arguments, and calls.
    Method (MTH0) {}
    Method (MTH1, 1, Serialized) { Return (Arg0) }
    Method (MTH7, 7) { Return (Arg6) }
    Method (LVL1, 0, Serialized, 1) {}
    Method (LVLF, 7, Serialized, 15) { Return (Arg6) }
    Method (CALL)
    {
        MTH0 ()
        MTH1 (NUM0)
        Local0 = 5
        Local0 = MTH7 (1, "B", Local0, MTH1 (2), Zero, Ones, NUM3)
        \_SB.EXT1 ()
        Return (Local0)
    }

    // Arithmetic, bits and comparisons.
    Method (MATH, 2)
    {
        Add (Arg0, Arg1, Local0)
        Subtract (Arg0, Arg1, Local1)
        Multiply (Arg0, Arg1, Local2)
        Divide (Arg0, Arg1, Local3, Local4)
        Mod (Arg0, Arg1, Local5)
        ShiftLeft (Arg0, 4, Local6)
        ShiftRight (Arg0, 4, Local7)
        And (Arg0, 0xff, Local0)
        NAnd (Arg0, 0xff, Local0)
        Or (Arg0, 0xff, Local0)
        NOr (Arg0, 0xff, Local0)
        XOr (Arg0, 0xff, Local0)
        Not (Arg0, Local0)
        FindSetLeftBit (Arg0, Local0)
        FindSetRightBit (Arg0, Local0)
        FromBCD (Arg0, Local0)
        ToBCD (Arg0, Local0)
        Increment (Local0)
        Decrement (Local0)
        Store (LAnd (LEqual (Arg0, 1), LOr (LLess (Arg0, 2), LGreater (Arg1, 3))), Local1)
        Store (LNot (Arg0), Local2)
        Store (LNotEqual (Arg0, Arg1), Local3)
        Store (LLessEqual (Arg0, Arg1), Local4)
        Store (LGreaterEqual (Arg0, Arg1), Local5)
    }

    // Objects.
    Method (OBJS, 2)
    {
        CopyObject (Arg0, Local0)
        Concatenate (Arg0, "B", Local1)
        ConcatenateResTemplate (Arg0, Arg1, Local2)
        Index (Arg0, 1, Local3)
        Mid (Arg0, 1, 2, Local4)
        ToBuffer (Arg0, Local5)
        ToInteger (Arg0, Local6)
        ToHexString (Arg0, Local7)
        ToDecimalString (Arg0, Local0)
        ToString (Arg0, 8, Local1)
        Store (SizeOf (Arg0), Local2)
        Store (ObjectType (Arg0), Local3)
        Store (DerefOf (Local3), Local4)
        Store (RefOf (Local4), Local5)
        Store (CondRefOf (\_SB.EXT0, Local6), Local7)
        Store (Match (PAK0, MEQ, 1, MTR, 0, 0), Local0)
        Store (Match (PAK0, MLE, 1, MLT, 2, 1), Local0)
        Store (Match (PAK0, MGE, 3, MGT, 4, 2), Local0)
        Store (Package (Arg1) { 1, NUM2 }, Local1)
        Store (Buffer (Arg1) { 1 }, Local2)
        CreateBitField (BUF0, 1, CBIT)
        CreateByteField (BUF0, 1, CBYT)
        CreateWordField (BUF0, 1, CWRD)
        CreateDWordField (BUF0, 0, CDWD)
        CreateQWordField (BUF2, 0, CQWD)
        CreateField (BUF0, 3, 7, CFLD)
    }

    // Statements.
    Method (STMT, 1)
    {
        If (Arg0)
        {
            Noop
        }
        ElseIf (LEqual (Arg0, 1))
        {
            BreakPoint
        }
        Else
        {
            Notify (\_SB.PCI0, 0x80)
        }
        While (Arg0)
        {
            If (LGreater (Arg0, 2)) { Continue }
            Break
        }
        Store (Acquire (MTX0, 0xffff), Local0)
        Acquire (MTX1, 100)
        Release (MTX1)
        Release (MTX0)
        Signal (EVT0)
        Store (Wait (EVT0, 10), Local1)
        Reset (EVT0)
        Sleep (10)
        Stall (50)
        Store (Timer, Local2)
        Store (Revision, Local3)
        Store (Arg0, Debug)
        Load (REG0, Local4)
        Unload (Local4)
        Store (LoadTable ("OEM1", "OEMID0", "TABLEID0", "\\_SB", "", Zero), Local5)
        Fatal (1, 0x12345678, Arg0)
    }
}
