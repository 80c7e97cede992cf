"""Pieces of code that find something by the size, in %r9 or on the stack, in ways that are not allowed; by name."""

SAMPLES = {
    'a comparison of the size': '''
   0: cmp    $0x80,%r9
   7: ja     c <by_comparison+0xc>
   9: mov    $0x8,%al
   b: ret
   c: mov    $0x9,%al
   e: ret
''',
    'a comparison of what is computed from it': '''
   0: add    $0x7,%r9
   4: shr    $0x3,%r9
   8: mov    %r9,%rax
   b: dec    %eax
   d: je     10 <by_units+0x10>
   f: ret
  10: ret
''',
    'a choice without a jump': '''
   0: cmp    $0x80,%r9
   7: mov    $0x8,%eax
   c: mov    $0x9,%ecx
  11: cmova  %ecx,%eax
  14: ret
''',
    'a table of the sizes': '''
   0: add    $0x7,%r9
   4: shr    $0x3,%r9
   8: lea    0x0(%rip),%rax        # f <by_table+0xf>
                        b: R_X86_64_PC32 .rodata-0x4
   f: movzbl (%r9,%rax,1),%eax
  14: ret
''',
    'a table of jumps': '''
   0: lea    0x0(%rip),%rax        # 7 <by_jumps+0x7>
   7: jmp    *(%rax,%r9,8)
''',
    'a jump into another function': '''
   0: jmp    5 <another+0x5>
                        1: R_X86_64_PLT32 helper-0x4
   5: ret
''',
    'a part of a register that is not followed': '''
   0: mov    %r9,%rax
   3: movzbl %ah,%ecx
   6: ret
''',
    'another test for none': '''
   0: test   %r9,%r9
   3: je     a <twice+0xa>
   5: test   %r9,%r9
   8: jne    a <twice+0xa>
   a: ret
''',
    'a comparison of the size where it stands': '''
   0: cmpq   $0x80,0x10(%rsp)
   9: ja     c <in_place+0xc>
   b: ret
   c: ret
''',
    'a comparison of the size that was read from the stack': '''
   0: mov    0x10(%rsp),%rsi
   5: cmp    $0x80,%rsi
   c: ja     f <from_stack+0xf>
   e: ret
   f: ret
''',
    'a comparison behind that with 256': '''
   0: mov    0x10(%rsp),%rsi
   5: cmp    $0x101,%rsi
   c: jae    16 <behind+0x16>
   e: cmp    $0x80,%rsi
  15: ja     17 <behind+0x17>
  16: ret
  17: ret
''',
    'a test of a byte that need not be 0': '''
   0: mov    0x10(%rsp),%rsi
   5: shl    $0x4,%esi
   8: test   %sil,%sil
   b: je     e <by_byte+0xe>
   d: ret
   e: ret
''',
    'a test of a byte that was 0 before a sum': '''
   0: mov    0x10(%rsp),%rsi
   5: mov    %esi,%eax
   7: shl    $0x8,%eax
   a: add    %esi,%eax
   c: test   %al,%al
   e: je     11 <by_sum+0x11>
  10: ret
  11: ret
''',
    'a stack pointer that moves': '''
   0: sub    $0x8,%rsp
   4: mov    0x10(%rsp),%rsi
   9: ret
''',
}
