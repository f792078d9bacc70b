; ModuleID = 'timer.c'
source_filename = "timer.c"
target datalayout = "e-m:e-p270:32:32-p271:32:32-p272:64:64-i64:64-f80:128-n8:16:32:64-S128"
target triple = "x86_64-pc-linux-gnu"

%struct.cue = type { i8, i64, i32 }

; Function Attrs: nofree noinline norecurse nosync nounwind readonly uwtable
define dso_local i32 @next_cue(%struct.cue* nocapture noundef readonly %cues, i32 noundef %count, i64 noundef %now) local_unnamed_addr #0 !dbg !20 {
entry:
  call void @llvm.dbg.value(metadata %struct.cue* %cues, metadata !41, metadata !DIExpression()), !dbg !46
  call void @llvm.dbg.value(metadata i32 %count, metadata !42, metadata !DIExpression()), !dbg !46
  call void @llvm.dbg.value(metadata i64 %now, metadata !43, metadata !DIExpression()), !dbg !46
  call void @llvm.dbg.value(metadata i32 0, metadata !44, metadata !DIExpression()), !dbg !47
  %cmp10 = icmp sgt i32 %count, 0, !dbg !48
  br i1 %cmp10, label %for.body.preheader, label %cleanup, !dbg !50

for.body.preheader:                               ; preds = %entry
  %wide.trip.count = zext i32 %count to i64, !dbg !48
  br label %for.body, !dbg !50

for.body:                                         ; preds = %for.body.preheader, %for.inc
  %indvars.iv = phi i64 [ 0, %for.body.preheader ], [ %indvars.iv.next, %for.inc ]
  call void @llvm.dbg.value(metadata i64 %indvars.iv, metadata !44, metadata !DIExpression()), !dbg !47
  %held = getelementptr inbounds %struct.cue, %struct.cue* %cues, i64 %indvars.iv, i32 0, !dbg !51
  %0 = load i8, i8* %held, align 8, !dbg !51, !tbaa !53
  %tobool.not = icmp eq i8 %0, 0, !dbg !59
  br i1 %tobool.not, label %land.lhs.true, label %for.inc, !dbg !60

land.lhs.true:                                    ; preds = %for.body
  %at = getelementptr inbounds %struct.cue, %struct.cue* %cues, i64 %indvars.iv, i32 1, !dbg !61
  %1 = load i64, i64* %at, align 8, !dbg !61, !tbaa !62
  %cmp3 = icmp sgt i64 %1, %now, !dbg !63
  br i1 %cmp3, label %cleanup.loopexit.split.loop.exit, label %for.inc, !dbg !64

for.inc:                                          ; preds = %for.body, %land.lhs.true
  %indvars.iv.next = add nuw nsw i64 %indvars.iv, 1, !dbg !65
  call void @llvm.dbg.value(metadata i64 %indvars.iv.next, metadata !44, metadata !DIExpression()), !dbg !47
  %exitcond.not = icmp eq i64 %indvars.iv.next, %wide.trip.count, !dbg !48
  br i1 %exitcond.not, label %cleanup, label %for.body, !dbg !50, !llvm.loop !66

cleanup.loopexit.split.loop.exit:                 ; preds = %land.lhs.true
  %2 = trunc i64 %indvars.iv to i32, !dbg !64
  br label %cleanup, !dbg !69

cleanup:                                          ; preds = %cleanup.loopexit.split.loop.exit, %for.inc, %entry
  %spec.select = phi i32 [ -1, %entry ], [ %2, %cleanup.loopexit.split.loop.exit ], [ -1, %for.inc ]
  ret i32 %spec.select, !dbg !69
}

; Function Attrs: nofree noinline norecurse nosync nounwind readonly uwtable
define dso_local i64 @remaining(%struct.cue* nocapture noundef readonly %cues, i32 noundef %count, i64 noundef %now) local_unnamed_addr #0 !dbg !70 {
entry:
  call void @llvm.dbg.value(metadata %struct.cue* %cues, metadata !74, metadata !DIExpression()), !dbg !78
  call void @llvm.dbg.value(metadata i32 %count, metadata !75, metadata !DIExpression()), !dbg !78
  call void @llvm.dbg.value(metadata i64 %now, metadata !76, metadata !DIExpression()), !dbg !78
  %call = call i32 @next_cue(%struct.cue* noundef %cues, i32 noundef %count, i64 noundef %now), !dbg !79
  call void @llvm.dbg.value(metadata i32 %call, metadata !77, metadata !DIExpression()), !dbg !78
  %cmp = icmp slt i32 %call, 0, !dbg !80
  br i1 %cmp, label %cond.end, label %cond.false, !dbg !81

cond.false:                                       ; preds = %entry
  %idxprom = sext i32 %call to i64, !dbg !82
  %at = getelementptr inbounds %struct.cue, %struct.cue* %cues, i64 %idxprom, i32 1, !dbg !83
  %0 = load i64, i64* %at, align 8, !dbg !83, !tbaa !62
  %sub = sub nsw i64 %0, %now, !dbg !84
  br label %cond.end, !dbg !81

cond.end:                                         ; preds = %entry, %cond.false
  %cond = phi i64 [ %sub, %cond.false ], [ -1, %entry ], !dbg !81
  ret i64 %cond, !dbg !85
}

; Function Attrs: mustprogress nofree noinline norecurse nosync nounwind uwtable willreturn writeonly
define dso_local void @put_two(i8* nocapture noundef writeonly %out, i32 noundef %number) local_unnamed_addr #1 !dbg !86 {
entry:
  call void @llvm.dbg.value(metadata i8* %out, metadata !91, metadata !DIExpression()), !dbg !93
  call void @llvm.dbg.value(metadata i32 %number, metadata !92, metadata !DIExpression()), !dbg !93
  %div = udiv i32 %number, 10, !dbg !94
  %0 = trunc i32 %div to i8, !dbg !95
  %conv = add i8 %0, 48, !dbg !95
  store i8 %conv, i8* %out, align 1, !dbg !96, !tbaa !97
  %rem = urem i32 %number, 10, !dbg !98
  %1 = trunc i32 %rem to i8, !dbg !99
  %conv2 = or i8 %1, 48, !dbg !99
  %arrayidx3 = getelementptr inbounds i8, i8* %out, i64 1, !dbg !100
  store i8 %conv2, i8* %arrayidx3, align 1, !dbg !101, !tbaa !97
  ret void, !dbg !102
}

; Function Attrs: mustprogress nofree noinline norecurse nosync nounwind uwtable willreturn writeonly
define dso_local void @put_remaining(i8* nocapture noundef writeonly %out, i64 noundef %left) local_unnamed_addr #1 !dbg !103 {
entry:
  call void @llvm.dbg.value(metadata i8* %out, metadata !107, metadata !DIExpression()), !dbg !110
  call void @llvm.dbg.value(metadata i64 %left, metadata !108, metadata !DIExpression()), !dbg !110
  %arrayidx = getelementptr inbounds i8, i8* %out, i64 2, !dbg !111
  store i8 58, i8* %arrayidx, align 1, !dbg !112, !tbaa !97
  %0 = icmp ugt i64 %left, 5999000, !dbg !113
  br i1 %0, label %if.then, label %if.end, !dbg !113

if.then:                                          ; preds = %entry
  %arrayidx2 = getelementptr inbounds i8, i8* %out, i64 4, !dbg !115
  store i8 45, i8* %arrayidx2, align 1, !dbg !117, !tbaa !97
  %arrayidx3 = getelementptr inbounds i8, i8* %out, i64 3, !dbg !118
  store i8 45, i8* %arrayidx3, align 1, !dbg !119, !tbaa !97
  %arrayidx4 = getelementptr inbounds i8, i8* %out, i64 1, !dbg !120
  store i8 45, i8* %arrayidx4, align 1, !dbg !121, !tbaa !97
  store i8 45, i8* %out, align 1, !dbg !122, !tbaa !97
  br label %cleanup, !dbg !123

if.end:                                           ; preds = %entry
  %add = add nsw i64 %left, 999, !dbg !124
  %div = sdiv i64 %add, 1000, !dbg !125
  call void @llvm.dbg.value(metadata i64 %div, metadata !109, metadata !DIExpression()), !dbg !110
  %div6 = sdiv i64 %add, 60000, !dbg !126
  %conv = trunc i64 %div6 to i32, !dbg !127
  call void @put_two(i8* noundef %out, i32 noundef %conv), !dbg !128
  %add.ptr = getelementptr inbounds i8, i8* %out, i64 3, !dbg !129
  %rem = srem i64 %div, 60, !dbg !130
  %conv7 = trunc i64 %rem to i32, !dbg !131
  call void @put_two(i8* noundef nonnull %add.ptr, i32 noundef %conv7), !dbg !132
  br label %cleanup, !dbg !133

cleanup:                                          ; preds = %if.end, %if.then
  ret void, !dbg !133
}

; Function Attrs: nofree nosync nounwind readnone speculatable willreturn
declare void @llvm.dbg.value(metadata, metadata, metadata) #2

attributes #0 = { nofree noinline norecurse nosync nounwind readonly uwtable "frame-pointer"="none" "min-legal-vector-width"="0" "no-trapping-math"="true" "stack-protector-buffer-size"="8" "target-cpu"="x86-64" "target-features"="+cx8,+fxsr,+mmx,+sse,+sse2,+x87" "tune-cpu"="generic" }
attributes #1 = { mustprogress nofree noinline norecurse nosync nounwind uwtable willreturn writeonly "frame-pointer"="none" "min-legal-vector-width"="0" "no-trapping-math"="true" "stack-protector-buffer-size"="8" "target-cpu"="x86-64" "target-features"="+cx8,+fxsr,+mmx,+sse,+sse2,+x87" "tune-cpu"="generic" }
attributes #2 = { nofree nosync nounwind readnone speculatable willreturn }

!llvm.dbg.cu = !{!0}
!llvm.module.flags = !{!13, !14, !15, !16, !17, !18}
!llvm.ident = !{!19}

!0 = distinct !DICompileUnit(language: DW_LANG_C99, file: !1, producer: "Debian clang version 14.0.6", isOptimized: true, runtimeVersion: 0, emissionKind: FullDebug, enums: !2, retainedTypes: !7, splitDebugInlining: false, nameTableKind: None)
!1 = !DIFile(filename: "timer.c", directory: ".", checksumkind: CSK_MD5, checksum: "e2d928e4d88bc6c6e620ab09274867aa")
!2 = !{!3}
!3 = !DICompositeType(tag: DW_TAG_enumeration_type, file: !1, line: 5, baseType: !4, size: 32, elements: !5)
!4 = !DIBasicType(name: "unsigned int", size: 32, encoding: DW_ATE_unsigned)
!5 = !{!6}
!6 = !DIEnumerator(name: "LONGEST", value: 5999000)
!7 = !{!8, !9}
!8 = !DIBasicType(name: "char", size: 8, encoding: DW_ATE_signed_char)
!9 = !DIDerivedType(tag: DW_TAG_typedef, name: "uint32_t", file: !10, line: 26, baseType: !11)
!10 = !DIFile(filename: "./x86_64-linux-gnu/bits/stdint-uintn.h", directory: ".", checksumkind: CSK_MD5, checksum: "2bf2ae53c58c01b1a1b9383b5195125c")
!11 = !DIDerivedType(tag: DW_TAG_typedef, name: "__uint32_t", file: !12, line: 42, baseType: !4)
!12 = !DIFile(filename: "./x86_64-linux-gnu/bits/types.h", directory: ".", checksumkind: CSK_MD5, checksum: "d108b5f93a74c50510d7d9bc0ab36df9")
!13 = !{i32 7, !"Dwarf Version", i32 5}
!14 = !{i32 2, !"Debug Info Version", i32 3}
!15 = !{i32 1, !"wchar_size", i32 4}
!16 = !{i32 7, !"PIC Level", i32 2}
!17 = !{i32 7, !"PIE Level", i32 2}
!18 = !{i32 7, !"uwtable", i32 1}
!19 = !{!"Debian clang version 14.0.6"}
!20 = distinct !DISubprogram(name: "next_cue", scope: !1, file: !1, line: 14, type: !21, scopeLine: 15, flags: DIFlagPrototyped | DIFlagAllCallsDescribed, spFlags: DISPFlagDefinition | DISPFlagOptimized, unit: !0, retainedNodes: !40)
!21 = !DISubroutineType(types: !22)
!22 = !{!23, !27, !23, !36}
!23 = !DIDerivedType(tag: DW_TAG_typedef, name: "int32_t", file: !24, line: 26, baseType: !25)
!24 = !DIFile(filename: "./x86_64-linux-gnu/bits/stdint-intn.h", directory: ".", checksumkind: CSK_MD5, checksum: "55bcbdc3159515ebd91d351a70d505f4")
!25 = !DIDerivedType(tag: DW_TAG_typedef, name: "__int32_t", file: !12, line: 41, baseType: !26)
!26 = !DIBasicType(name: "int", size: 32, encoding: DW_ATE_signed)
!27 = !DIDerivedType(tag: DW_TAG_pointer_type, baseType: !28, size: 64)
!28 = !DIDerivedType(tag: DW_TAG_const_type, baseType: !29)
!29 = distinct !DICompositeType(tag: DW_TAG_structure_type, name: "cue", file: !1, line: 7, size: 192, elements: !30)
!30 = !{!31, !35, !39}
!31 = !DIDerivedType(tag: DW_TAG_member, name: "held", scope: !29, file: !1, line: 8, baseType: !32, size: 8)
!32 = !DIDerivedType(tag: DW_TAG_typedef, name: "uint8_t", file: !10, line: 24, baseType: !33)
!33 = !DIDerivedType(tag: DW_TAG_typedef, name: "__uint8_t", file: !12, line: 38, baseType: !34)
!34 = !DIBasicType(name: "unsigned char", size: 8, encoding: DW_ATE_unsigned_char)
!35 = !DIDerivedType(tag: DW_TAG_member, name: "at", scope: !29, file: !1, line: 9, baseType: !36, size: 64, offset: 64)
!36 = !DIDerivedType(tag: DW_TAG_typedef, name: "int64_t", file: !24, line: 27, baseType: !37)
!37 = !DIDerivedType(tag: DW_TAG_typedef, name: "__int64_t", file: !12, line: 44, baseType: !38)
!38 = !DIBasicType(name: "long", size: 64, encoding: DW_ATE_signed)
!39 = !DIDerivedType(tag: DW_TAG_member, name: "number", scope: !29, file: !1, line: 10, baseType: !9, size: 32, offset: 128)
!40 = !{!41, !42, !43, !44}
!41 = !DILocalVariable(name: "cues", arg: 1, scope: !20, file: !1, line: 14, type: !27)
!42 = !DILocalVariable(name: "count", arg: 2, scope: !20, file: !1, line: 14, type: !23)
!43 = !DILocalVariable(name: "now", arg: 3, scope: !20, file: !1, line: 14, type: !36)
!44 = !DILocalVariable(name: "i", scope: !45, file: !1, line: 16, type: !23)
!45 = distinct !DILexicalBlock(scope: !20, file: !1, line: 16, column: 5)
!46 = !DILocation(line: 0, scope: !20)
!47 = !DILocation(line: 0, scope: !45)
!48 = !DILocation(line: 16, column: 27, scope: !49)
!49 = distinct !DILexicalBlock(scope: !45, file: !1, line: 16, column: 5)
!50 = !DILocation(line: 16, column: 5, scope: !45)
!51 = !DILocation(line: 17, column: 22, scope: !52)
!52 = distinct !DILexicalBlock(scope: !49, file: !1, line: 17, column: 13)
!53 = !{!54, !55, i64 0}
!54 = !{!"cue", !55, i64 0, !57, i64 8, !58, i64 16}
!55 = !{!"omnipotent char", !56, i64 0}
!56 = !{!"Simple C/C++ TBAA"}
!57 = !{!"long", !55, i64 0}
!58 = !{!"int", !55, i64 0}
!59 = !DILocation(line: 17, column: 14, scope: !52)
!60 = !DILocation(line: 17, column: 27, scope: !52)
!61 = !DILocation(line: 17, column: 38, scope: !52)
!62 = !{!54, !57, i64 8}
!63 = !DILocation(line: 17, column: 41, scope: !52)
!64 = !DILocation(line: 17, column: 13, scope: !49)
!65 = !DILocation(line: 16, column: 37, scope: !49)
!66 = distinct !{!66, !50, !67, !68}
!67 = !DILocation(line: 18, column: 20, scope: !45)
!68 = !{!"llvm.loop.unroll.disable"}
!69 = !DILocation(line: 20, column: 1, scope: !20)
!70 = distinct !DISubprogram(name: "remaining", scope: !1, file: !1, line: 23, type: !71, scopeLine: 24, flags: DIFlagPrototyped | DIFlagAllCallsDescribed, spFlags: DISPFlagDefinition | DISPFlagOptimized, unit: !0, retainedNodes: !73)
!71 = !DISubroutineType(types: !72)
!72 = !{!36, !27, !23, !36}
!73 = !{!74, !75, !76, !77}
!74 = !DILocalVariable(name: "cues", arg: 1, scope: !70, file: !1, line: 23, type: !27)
!75 = !DILocalVariable(name: "count", arg: 2, scope: !70, file: !1, line: 23, type: !23)
!76 = !DILocalVariable(name: "now", arg: 3, scope: !70, file: !1, line: 23, type: !36)
!77 = !DILocalVariable(name: "next", scope: !70, file: !1, line: 25, type: !23)
!78 = !DILocation(line: 0, scope: !70)
!79 = !DILocation(line: 25, column: 20, scope: !70)
!80 = !DILocation(line: 27, column: 17, scope: !70)
!81 = !DILocation(line: 27, column: 12, scope: !70)
!82 = !DILocation(line: 27, column: 28, scope: !70)
!83 = !DILocation(line: 27, column: 39, scope: !70)
!84 = !DILocation(line: 27, column: 42, scope: !70)
!85 = !DILocation(line: 27, column: 5, scope: !70)
!86 = distinct !DISubprogram(name: "put_two", scope: !1, file: !1, line: 31, type: !87, scopeLine: 32, flags: DIFlagPrototyped | DIFlagAllCallsDescribed, spFlags: DISPFlagDefinition | DISPFlagOptimized, unit: !0, retainedNodes: !90)
!87 = !DISubroutineType(types: !88)
!88 = !{null, !89, !9}
!89 = !DIDerivedType(tag: DW_TAG_pointer_type, baseType: !8, size: 64)
!90 = !{!91, !92}
!91 = !DILocalVariable(name: "out", arg: 1, scope: !86, file: !1, line: 31, type: !89)
!92 = !DILocalVariable(name: "number", arg: 2, scope: !86, file: !1, line: 31, type: !9)
!93 = !DILocation(line: 0, scope: !86)
!94 = !DILocation(line: 33, column: 34, scope: !86)
!95 = !DILocation(line: 33, column: 14, scope: !86)
!96 = !DILocation(line: 33, column: 12, scope: !86)
!97 = !{!55, !55, i64 0}
!98 = !DILocation(line: 34, column: 34, scope: !86)
!99 = !DILocation(line: 34, column: 14, scope: !86)
!100 = !DILocation(line: 34, column: 5, scope: !86)
!101 = !DILocation(line: 34, column: 12, scope: !86)
!102 = !DILocation(line: 35, column: 1, scope: !86)
!103 = distinct !DISubprogram(name: "put_remaining", scope: !1, file: !1, line: 38, type: !104, scopeLine: 39, flags: DIFlagPrototyped | DIFlagAllCallsDescribed, spFlags: DISPFlagDefinition | DISPFlagOptimized, unit: !0, retainedNodes: !106)
!104 = !DISubroutineType(types: !105)
!105 = !{null, !89, !36}
!106 = !{!107, !108, !109}
!107 = !DILocalVariable(name: "out", arg: 1, scope: !103, file: !1, line: 38, type: !89)
!108 = !DILocalVariable(name: "left", arg: 2, scope: !103, file: !1, line: 38, type: !36)
!109 = !DILocalVariable(name: "seconds", scope: !103, file: !1, line: 40, type: !36)
!110 = !DILocation(line: 0, scope: !103)
!111 = !DILocation(line: 42, column: 5, scope: !103)
!112 = !DILocation(line: 42, column: 12, scope: !103)
!113 = !DILocation(line: 43, column: 18, scope: !114)
!114 = distinct !DILexicalBlock(scope: !103, file: !1, line: 43, column: 9)
!115 = !DILocation(line: 44, column: 36, scope: !116)
!116 = distinct !DILexicalBlock(scope: !114, file: !1, line: 43, column: 37)
!117 = !DILocation(line: 44, column: 43, scope: !116)
!118 = !DILocation(line: 44, column: 27, scope: !116)
!119 = !DILocation(line: 44, column: 34, scope: !116)
!120 = !DILocation(line: 44, column: 18, scope: !116)
!121 = !DILocation(line: 44, column: 25, scope: !116)
!122 = !DILocation(line: 44, column: 16, scope: !116)
!123 = !DILocation(line: 45, column: 9, scope: !116)
!124 = !DILocation(line: 47, column: 21, scope: !103)
!125 = !DILocation(line: 47, column: 28, scope: !103)
!126 = !DILocation(line: 48, column: 37, scope: !103)
!127 = !DILocation(line: 48, column: 18, scope: !103)
!128 = !DILocation(line: 48, column: 5, scope: !103)
!129 = !DILocation(line: 49, column: 17, scope: !103)
!130 = !DILocation(line: 49, column: 41, scope: !103)
!131 = !DILocation(line: 49, column: 22, scope: !103)
!132 = !DILocation(line: 49, column: 5, scope: !103)
!133 = !DILocation(line: 50, column: 1, scope: !103)
