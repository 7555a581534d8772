<?xml version="1.0" encoding="UTF-8"?>
<xsl:stylesheet version="1.0" xmlns:xsl="http://www.w3.org/1999/XSL/Transform"
    xmlns:m="http://www.freedesktop.org/standards/shared-mime-info" exclude-result-prefixes="m">
  <xsl:import href="../lines.xsl"/>

  <xsl:template match="/" mode="witnesses">
    <xsl:for-each select="//m:mime-type[m:glob[@weight != 50]]">
      <xsl:choose>
        <xsl:when test="m:sub-class-of">
          <xsl:for-each select="m:sub-class-of">
            <xsl:apply-templates select=".." mode="witness">
              <xsl:with-param name="class" select="."/>
            </xsl:apply-templates>
          </xsl:for-each>
        </xsl:when>
        <xsl:otherwise>
          <xsl:apply-templates select="." mode="witness"/>
        </xsl:otherwise>
      </xsl:choose>
    </xsl:for-each>
  </xsl:template>

  <xsl:template match="m:mime-type" mode="witness">
    <xsl:param name="class" select="/.."/>
    <witness>
      <mime-type>
        <xsl:apply-templates select="@type" mode="shown"/>
        <xsl:for-each select="m:glob[@weight != 50]">
          <glob>
            <xsl:apply-templates select="@weight" mode="shown"/>
            <xsl:apply-templates select="@pattern" mode="shown"/>
          </glob>
        </xsl:for-each>
        <xsl:copy-of select="$class"/>
      </mime-type>
    </witness>
  </xsl:template>
</xsl:stylesheet>
