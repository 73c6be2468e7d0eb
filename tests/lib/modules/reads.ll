
; What the crates have for flash: a question whether it is mapped, and the copy of its bytes. reads.py gives both another body.
define internal i1 @"dfu_slots::read::is_mapped"() unnamed_addr #0 {
start:
  ret i1 true
}

define internal void @"dfu_slots::read::read_flash"(ptr noundef %a0, i64 noundef %a1, ptr noundef %a2, i64 noundef %a3) unnamed_addr #0 {
start:
  call void @llvm.memmove.p0.p0.i64(ptr %a2, ptr %a0, i64 %a3, i1 false)
  ret void
}

; The byte at a place, with 256 more if flash is mapped.
define i64 @dfu_reads_byte(ptr noundef %a0, i64 noundef %a1) unnamed_addr #0 {
start:
  %byte = alloca [1 x i8], align 1
  call void @llvm.memset.p0.i64(ptr %byte, i8 0, i64 1, i1 false)
  %place = getelementptr i8, ptr %a0, i64 %a1
  call void @"dfu_slots::read::read_flash"(ptr %place, i64 1, ptr %byte, i64 1)
  %x = load i8, ptr %byte, align 1
  %x.wide = zext i8 %x to i64
  %is = call i1 @"dfu_slots::read::is_mapped"()
  br i1 %is, label %mapped, label %other

mapped:
  %more = add i64 %x.wide, 256
  ret i64 %more

other:
  ret i64 %x.wide
}
